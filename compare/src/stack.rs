//! A stack of its own for a call, painted beforehand so that what the call used of it shows; and what happens when a
//! call touches memory that it may not.

use std::arch::asm;
use std::ffi::c_void;
use std::sync::Mutex;

use crate::pages::Pages;

const PAINT: u32 = 0x5bd1_e995;

#[derive(Default)]
pub struct Stack(Pages);

extern "C" fn enter<F: FnMut()>(call: *mut c_void) {
    // SAFETY: `run` hands over its own closure, which is still there.
    unsafe { (*call.cast::<F>())() }
}

impl Stack {
    /// Makes the call with so many bytes of stack; the answer is how many it used, the frame that hands over the
    /// arguments too.
    pub fn run<F: FnMut()>(&mut self, bytes: usize, mut call: F) -> usize {
        self.0.fit(bytes);
        self.0.words_mut().fill(PAINT);
        let top = self.0.start().wrapping_add(self.0.bytes());
        // SAFETY: the pages are nothing else's, their end is aligned, and the stack pointer is put back.
        unsafe {
            asm!(
                "mov r12, rsp",
                "mov rsp, {top}",
                "call {enter}",
                "mov rsp, r12",
                top = in(reg) top,
                enter = in(reg) enter::<F>,
                in("rdi") &raw mut call,
                out("r12") _,
                clobber_abi("C"),
            );
        }
        let clean = self.0.words().iter().take_while(|&&word| word == PAINT).count();
        self.0.bytes() - 4 * clean
    }
}

/// The name of the call that is being made.
static NAME: Mutex<String> = Mutex::new(String::new());

pub fn name_call(name: &str) {
    let mut kept = NAME.lock().expect("no call holds it");
    kept.clear();
    kept.push_str(name);
}

/// As the C library has it on x86-64.
#[repr(C)]
struct Action {
    handler: extern "C" fn(i32),
    mask: [u64; 16],
    flags: i32,
    restorer: usize,
}

unsafe extern "C" {
    fn sigaction(signal: i32, action: *const Action, before: *mut c_void) -> i32;
    fn _exit(status: i32) -> !;
}

extern "C" fn fault(_: i32) {
    let name = NAME.lock().map_or_else(|_| String::new(), |name| name.clone());
    println!("{name}: memory was touched that is not lent");
    // SAFETY: nothing is left to do. An orderly end would give back the stack that this runs on.
    unsafe { _exit(1) }
}

/// From now on a fault names the call and ends the program with 1.
pub fn tell_faults() {
    const SEGMENT: i32 = 11;
    const BUS: i32 = 7;
    /// The stack may be what is full, so the one that Rust keeps for that is used.
    const ON_ANOTHER_STACK: i32 = 0x0800_0000;
    let action = Action { handler: fault, mask: [0; 16], flags: ON_ANOTHER_STACK, restorer: 0 };
    for signal in [SEGMENT, BUS] {
        // SAFETY: the handler ends the program; a fault comes from the converter's code, which holds no lock.
        let status = unsafe { sigaction(signal, &action, std::ptr::null_mut()) };
        assert_eq!(status, 0, "no handler for faults");
    }
}
