//! What only holds at the very beginning: which streams are closed. Before `main`, Rust's runtime puts /dev/null in
//! place of a closed standard stream, and whatever is printed there would be lost without a word. So this looks first,
//! in a function that the loader calls before the runtime is there.
//!
//! It also has the signal of the file-size limit passed over, so that a write past the limit fails, and is told, in
//! place of ending the program.

use cli::Closed;
use std::ffi::c_int;
use std::sync::atomic::{AtomicBool, Ordering::Relaxed};

// The numbers are those of Linux.
const F_GETFD: c_int = 1;
const SIGXFSZ: c_int = 25;
const SIG_IGN: usize = 1;

extern "C" {
    fn fcntl(descriptor: c_int, command: c_int, ...) -> c_int;
    fn signal(number: c_int, handler: usize) -> usize;
}

static INPUT: AtomicBool = AtomicBool::new(false);
static OUTPUT: AtomicBool = AtomicBool::new(false);

#[used]
#[link_section = ".init_array"]
static LOOK: extern "C" fn() = look;

extern "C" fn look() {
    // Both calls take numbers alone, so there is nothing that they could be lent wrongly; asking for the flags of a
    // descriptor fails exactly if it is closed. Nothing of Rust's runtime is used.
    unsafe {
        INPUT.store(fcntl(0, F_GETFD) < 0, Relaxed);
        OUTPUT.store(fcntl(1, F_GETFD) < 0, Relaxed);
        signal(SIGXFSZ, SIG_IGN);
    }
}

/// The streams that were closed when the program began.
pub fn closed() -> Closed {
    Closed { input: INPUT.load(Relaxed), output: OUTPUT.load(Relaxed) }
}
