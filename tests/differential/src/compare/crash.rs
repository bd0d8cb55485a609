//! Names the call during which the library stopped the program.

use std::fmt::Display;
use std::ptr;
use std::sync::atomic::{AtomicPtr, Ordering};

const SIGNALS: [i32; 6] = [SIGILL, SIGTRAP, SIGABRT, SIGBUS, SIGFPE, SIGSEGV];
const SIGILL: i32 = 4;
const SIGTRAP: i32 = 5;
const SIGABRT: i32 = 6;
const SIGBUS: i32 = 7;
const SIGFPE: i32 = 8;
const SIGSEGV: i32 = 11;

/// Points to the `&dyn Display` of the call that is under way, or is null.
static UNDER_WAY: AtomicPtr<()> = AtomicPtr::new(ptr::null_mut());

extern "C" {
    fn signal(number: i32, handler: extern "C" fn(i32)) -> usize;
    fn _exit(status: i32) -> !;
}

/// Reports fatal signals from now on.
pub fn watch() {
    for number in SIGNALS {
        // SAFETY: the handler has the signature that `signal` asks for.
        unsafe { signal(number, report) };
    }
}

/// Makes a call into the library, to be described so should it never return.
pub fn during<T>(description: &dyn Display, call: impl FnOnce() -> T) -> T {
    UNDER_WAY.store(
        ptr::from_ref(&description).cast_mut().cast(),
        Ordering::Release,
    );
    let result = call();
    UNDER_WAY.store(ptr::null_mut(), Ordering::Release);
    result
}

extern "C" fn report(number: i32) {
    let description = UNDER_WAY.load(Ordering::Acquire).cast::<&dyn Display>();
    // SAFETY: not null only while `during`, which holds the description, is on the stack;
    // the library's code, where the signal arose, holds no lock that printing needs.
    match unsafe { description.as_ref() } {
        Some(call) => print!("differential: FAILED, signal {number} during\n{call}"),
        None => println!("differential: FAILED, signal {number} outside the library"),
    }
    // SAFETY: ends the process.
    unsafe { _exit(1) }
}
