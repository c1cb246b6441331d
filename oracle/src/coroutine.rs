//! One stack for each participant, and the switch between a stack and the schedule.
//!
//! A turn runs an operation from one stop to the next. A stack is used again from its top by the next operation; an
//! operation that is never finished is simply forgotten, its memory belongs to the arena.

use crate::arena::ARENA;
use crate::single::Single;
use core::arch::naked_asm;
use core::ptr;

pub(crate) const STACKS: usize = 32;
const BYTES: usize = 256 * 1024;
const CANARY: u64 = 0x5741_5443_4844_4f47;

struct Switch {
    within: bool,
    ended: bool,
    schedule: usize,
    current: usize,
    stopped: [usize; STACKS],
    memory: *mut u64,
    task: Option<fn()>,
}

static SWITCH: Single<Switch> = Single::new(Switch {
    within: false,
    ended: false,
    schedule: 0,
    current: 0,
    stopped: [0; STACKS],
    memory: ptr::null_mut(),
    task: None,
});

/// Keeps the registers that a function must keep, leaves the stack pointer in `from` and goes on at `to`.
#[unsafe(naked)]
unsafe extern "sysv64" fn switch(from: *mut usize, to: usize) {
    naked_asm!(
        "push rbp", "push rbx", "push r12", "push r13", "push r14", "push r15",
        "mov [rdi], rsp",
        "mov rsp, rsi",
        "pop r15", "pop r14", "pop r13", "pop r12", "pop rbx", "pop rbp",
        "ret",
    )
}

extern "sysv64" fn entry() -> ! {
    unsafe {
        let task = (*SWITCH.get()).task.take().expect("a task was given");
        task();
        (*SWITCH.get()).ended = true;
        pause();
    }
    unreachable!("an ended operation is not resumed")
}

/// True while an operation runs on a stack of its own.
pub(crate) fn within() -> bool {
    unsafe { (*SWITCH.get()).within }
}

/// Hands the turn back to the schedule.
pub(crate) fn pause() {
    unsafe {
        let s = SWITCH.get();
        let own = &raw mut (*s).stopped[(*s).current];
        switch(own, (*s).schedule);
    }
}

/// Begins `task` on a stack and runs it to its first stop. True if it ended without one.
pub(crate) fn begin(index: usize, task: fn()) -> bool {
    unsafe {
        let s = SWITCH.get();
        if (*s).memory.is_null() {
            let words = vec![CANARY; STACKS * BYTES / 8];
            (*s).memory = Box::leak(words.into_boxed_slice()).as_mut_ptr();
        }
        // `ret` takes the entry; the stack pointer behind it must be 8 above a multiple of 16, as after a call.
        let top = (*s).memory.add((index + 1) * BYTES / 8) as usize & !15;
        let first = (top - 16) as *mut usize;
        first.write(entry as *const () as usize);
        (*s).stopped[index] = first.sub(6) as usize;
        (*s).task = Some(task);
    }
    resume(index)
}

/// Gives the turn to a stopped operation. True if it ended.
pub(crate) fn resume(index: usize) -> bool {
    unsafe {
        let s = SWITCH.get();
        (*s).within = true;
        (*s).ended = false;
        (*s).current = index;
        ARENA.enter();
        switch(&raw mut (*s).schedule, (*s).stopped[index]);
        ARENA.leave();
        (*s).within = false;
        assert_eq!(*(*s).memory.add(index * BYTES / 8), CANARY, "a stack of an operation ran over");
        (*s).ended
    }
}
