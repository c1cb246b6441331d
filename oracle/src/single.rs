//! A value of the one thread there is. The stepped run is coroutines on one thread, so nothing here is ever shared.

use core::cell::UnsafeCell;

pub(crate) struct Single<T>(UnsafeCell<T>);

unsafe impl<T> Sync for Single<T> {}

impl<T> Single<T> {
    pub(crate) const fn new(value: T) -> Self {
        Single(UnsafeCell::new(value))
    }
    /// A raw pointer and not a reference: the allocator and the atomics reach in while others hold their own.
    pub(crate) fn get(&self) -> *mut T {
        self.0.get()
    }
}
