//! What the crate's `lib.rs` calls `primitive`, with atomics that stop before each access.
//!
//! `stop` says which access is about to be made and, inside a coroutine, hands the turn back to the schedule. The access
//! itself is made after the turn has come back, so one turn is one access and the private work after it.

use crate::coroutine;
use crate::single::Single;

pub(crate) mod cell {
    #[derive(Debug)]
    #[repr(transparent)]
    pub(crate) struct UnsafeCell<T>(core::cell::UnsafeCell<T>);

    impl<T> UnsafeCell<T> {
        pub(crate) const fn new(data: T) -> Self {
            UnsafeCell(core::cell::UnsafeCell::new(data))
        }
        pub(crate) fn with<R>(&self, f: impl FnOnce(*const T) -> R) -> R {
            f(self.0.get())
        }
        pub(crate) fn with_mut<R>(&self, f: impl FnOnce(*mut T) -> R) -> R {
            f(self.0.get())
        }
    }
}

#[derive(Clone, Copy, PartialEq, Eq, Debug)]
pub(crate) enum Verb {
    Load,
    Store,
    Exchange,
    FetchOr,
}

/// An access that is about to be made.
#[derive(Clone, Copy)]
pub(crate) struct Asked {
    pub(crate) address: usize,
    pub(crate) verb: Verb,
}

/// An access that was made. `won` is false for a failed exchange only; `stored` is then not meant. `spurious`: it failed although the value agreed.
#[derive(Clone, Copy)]
pub(crate) struct Made {
    pub(crate) address: usize,
    pub(crate) verb: Verb,
    pub(crate) won: bool,
    pub(crate) spurious: bool,
    pub(crate) read: u64,
    pub(crate) stored: u64,
}

const NOTHING: Made = Made { address: 0, verb: Verb::Load, won: false, spurious: false, read: 0, stored: 0 };
pub(crate) const TRACE: usize = 64;

pub(crate) struct Turn {
    pub(crate) asked: Asked,
    pub(crate) made: Made,
    /// This turn is a marked step: where its access is a weak exchange, that fails.
    pub(crate) marked: bool,
    /// Number of accesses made since it was last set to 0; a turn must make exactly one.
    pub(crate) count: usize,
    /// The accesses of a whole operation, for finding the addresses at start-up.
    pub(crate) trace: [Made; TRACE],
}

pub(crate) static TURN: Single<Turn> = Single::new(Turn {
    asked: Asked { address: 0, verb: Verb::Load },
    made: NOTHING,
    marked: false,
    count: 0,
    trace: [NOTHING; TRACE],
});

#[inline(never)]
fn stop(address: usize, verb: Verb) {
    if coroutine::within() {
        unsafe { (*TURN.get()).asked = Asked { address, verb } };
        coroutine::pause();
    }
}

#[inline(never)]
fn note(address: usize, verb: Verb, won: bool, read: u64, stored: u64) {
    keep(Made { address, verb, won, spurious: false, read, stored });
}

/// Whether the step that is being made is a marked one.
#[inline(never)]
fn marked() -> bool {
    unsafe { (*TURN.get()).marked }
}

/// A weak exchange that a marked step makes fail, whatever it found.
#[inline(never)]
fn note_failed(address: usize, agreed: bool, read: u64) {
    keep(Made { address, verb: Verb::Exchange, won: false, spurious: agreed, read, stored: 0 });
}

fn keep(made: Made) {
    let turn = TURN.get();
    unsafe {
        (*turn).made = made;
        if (*turn).count < TRACE {
            (*turn).trace[(*turn).count] = made;
        }
        (*turn).count += 1;
    }
}

pub(crate) mod sync {
    pub(crate) use alloc::sync::Arc;

    pub(crate) mod atomic {
        use super::super::{marked, note, note_failed, stop, Verb};
        pub(crate) use core::sync::atomic::{compiler_fence, Ordering};
        use core::{cell::UnsafeCell, fmt, ptr};

        /// Fences aren't steps, and all of this runs in one thread.
        pub(crate) fn fence(ord: Ordering) {
            compiler_fence(ord);
        }

        macro_rules! stepped {
            ($name:ident, $int:ty) => {
                #[repr(transparent)]
                pub(crate) struct $name {
                    value: UnsafeCell<$int>,
                }

                unsafe impl Send for $name {}
                unsafe impl Sync for $name {}

                impl $name {
                    pub(crate) const fn new(value: $int) -> Self {
                        $name { value: UnsafeCell::new(value) }
                    }
                    fn read(&self) -> $int {
                        unsafe { ptr::read_volatile(self.value.get()) }
                    }
                    fn write(&self, value: $int) {
                        unsafe { ptr::write_volatile(self.value.get(), value) }
                    }
                    fn address(&self) -> usize {
                        self.value.get() as usize
                    }
                    pub(crate) fn into_inner(self) -> $int {
                        self.value.into_inner()
                    }
                    pub(crate) fn load(&self, _: Ordering) -> $int {
                        stop(self.address(), Verb::Load);
                        let read = self.read();
                        note(self.address(), Verb::Load, true, read as u64, 0);
                        read
                    }
                    pub(crate) fn store(&self, value: $int, _: Ordering) {
                        stop(self.address(), Verb::Store);
                        self.write(value);
                        note(self.address(), Verb::Store, true, 0, value as u64);
                    }
                    pub(crate) fn compare_exchange(
                        &self,
                        current: $int,
                        new: $int,
                        _: Ordering,
                        _: Ordering,
                    ) -> Result<$int, $int> {
                        stop(self.address(), Verb::Exchange);
                        self.exchange(current, new)
                    }
                    fn exchange(&self, current: $int, new: $int) -> Result<$int, $int> {
                        let read = self.read();
                        let won = read == current;
                        if won {
                            self.write(new);
                        }
                        note(self.address(), Verb::Exchange, won, read as u64, if won { new as u64 } else { 0 });
                        if won { Ok(read) } else { Err(read) }
                    }
                    /// Fails on a different value; and for no reason where the step is marked, as document 02's No. 2 says.
                    pub(crate) fn compare_exchange_weak(
                        &self,
                        current: $int,
                        new: $int,
                        _: Ordering,
                        _: Ordering,
                    ) -> Result<$int, $int> {
                        stop(self.address(), Verb::Exchange);
                        if !marked() {
                            return self.exchange(current, new);
                        }
                        let read = self.read();
                        note_failed(self.address(), read == current, read as u64);
                        Err(read)
                    }
                    pub(crate) fn fetch_or(&self, bits: $int, _: Ordering) -> $int {
                        stop(self.address(), Verb::FetchOr);
                        let read = self.read();
                        self.write(read | bits);
                        note(self.address(), Verb::FetchOr, true, read as u64, (read | bits) as u64);
                        read
                    }
                    pub(crate) fn fetch_and(&self, _: $int, _: Ordering) -> $int {
                        unreachable!("no access of the judged files")
                    }
                    pub(crate) fn fetch_xor(&self, _: $int, _: Ordering) -> $int {
                        unreachable!("no access of the judged files")
                    }
                    pub(crate) fn swap(&self, _: $int, _: Ordering) -> $int {
                        unreachable!("no access of the judged files")
                    }
                }

                impl Default for $name {
                    fn default() -> Self {
                        $name::new(0)
                    }
                }

                impl fmt::Debug for $name {
                    fn fmt(&self, f: &mut fmt::Formatter<'_>) -> fmt::Result {
                        self.read().fmt(f)
                    }
                }

                impl crossbeam_utils::atomic::AtomicConsume for $name {
                    type Val = $int;
                    fn load_consume(&self) -> $int {
                        self.load(Ordering::Acquire)
                    }
                }
            };
        }

        stepped!(AtomicUsize, usize);
        stepped!(AtomicU64, u64);
    }
}
