//! A stack that is painted before calls run on it, in threads of their own, so that the bytes they used can be counted. For Linux.
#![allow(dead_code)] // each program uses its own part

use std::ffi::{c_int, c_void};
use std::ptr::{addr_of, addr_of_mut, null_mut};

/// Bytes below the stack that nobody may touch, so that an overflow ends the program.
const GUARD: usize = 1 << 16;

const PAINT: u8 = 0xA5;

const NO_ACCESS: c_int = 0;
const READ_AND_WRITE: c_int = 3;
const PRIVATE_ANONYMOUS_AND_THERE: c_int = 0x8022;

/// As large as the C library's, or larger.
#[repr(C, align(16))]
struct Attributes([u8; 128]);

type Start = extern "C" fn(*mut c_void) -> *mut c_void;

extern "C" {
    fn mmap(at: *mut c_void, len: usize, protection: c_int, flags: c_int, file: c_int, offset: i64) -> *mut c_void;
    fn mprotect(at: *mut c_void, len: usize, protection: c_int) -> c_int;
    fn munmap(at: *mut c_void, len: usize) -> c_int;
    fn pthread_attr_init(attributes: *mut Attributes) -> c_int;
    fn pthread_attr_setstack(attributes: *mut Attributes, stack: *mut c_void, len: usize) -> c_int;
    fn pthread_create(thread: *mut usize, attributes: *const Attributes, start: Start, given: *mut c_void) -> c_int;
    fn pthread_join(thread: usize, result: *mut *mut c_void) -> c_int;
}

/// Where it is mapped, behind the guard and with so many bytes; and where it stood before the calls, 0 where there was none.
pub struct Stack {
    bottom: usize,
    bytes: usize,
    before: usize,
}

/// What a thread is given, and what it leaves: where its stack stood before the call.
struct Given<'a> {
    call: &'a mut dyn FnMut(),
    before: usize,
}

extern "C" fn start(given: *mut c_void) -> *mut c_void {
    // The pointer is that of `run`, which waits for the thread's end.
    let given = unsafe { &mut *(given as *mut Given) };
    let here = 0_u8;
    given.before = addr_of!(here) as usize;
    (given.call)();
    null_mut()
}

impl Stack {
    pub fn painted(bytes: usize) -> Stack {
        // The memory is mapped for this stack alone, and until it is dropped.
        let bottom = unsafe {
            let memory = mmap(null_mut(), GUARD + bytes, READ_AND_WRITE, PRIVATE_ANONYMOUS_AND_THERE, -1, 0);
            assert!(memory as isize != -1, "no memory for a stack");
            done(mprotect(memory, GUARD, NO_ACCESS));
            let bottom = memory.add(GUARD);
            bottom.cast::<u8>().write_bytes(PAINT, bytes);
            bottom as usize
        };
        Stack { bottom, bytes, before: 0 }
    }

    /// The call's answer, in a thread on this stack, which ends before this does.
    pub fn run<T: Send>(&mut self, call: impl FnOnce() -> T + Send) -> T {
        let (mut call, mut answer) = (Some(call), None);
        let mut once = || answer = call.take().map(|call| call());
        let mut given = Given { call: &mut once, before: 0 };
        let (mut attributes, mut thread) = (Attributes([0; 128]), 0);
        unsafe {
            done(pthread_attr_init(&mut attributes));
            done(pthread_attr_setstack(&mut attributes, self.bottom as *mut c_void, self.bytes));
            done(pthread_create(&mut thread, &attributes, start, addr_of_mut!(given) as *mut c_void));
            done(pthread_join(thread, null_mut()));
        }
        self.before = self.before.max(given.before);
        answer.expect("the thread has made the call")
    }

    /// How many bytes the call has used that used the most.
    pub fn used(&self) -> usize {
        // No thread is on the stack now.
        let bytes = unsafe { std::slice::from_raw_parts(self.bottom as *const u8, self.bytes) };
        let painted = bytes.iter().take_while(|byte| **byte == PAINT).count();
        self.before.saturating_sub(self.bottom + painted)
    }
}

impl Drop for Stack {
    fn drop(&mut self) {
        unsafe { done(munmap((self.bottom - GUARD) as *mut c_void, GUARD + self.bytes)) };
    }
}

/// The call's answer, in a thread with a stack of this many bytes, and how many of them it used.
pub fn run<T: Send>(bytes: usize, call: impl FnOnce() -> T + Send) -> (T, usize) {
    let mut stack = Stack::painted(bytes);
    let answer = stack.run(call);
    (answer, stack.used())
}

fn done(status: c_int) {
    assert_eq!(status, 0, "a call of the C library");
}
