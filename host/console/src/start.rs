//! Which of the standard streams were closed when the program started: the
//! only module with `unsafe`. It must look before the standard library starts,
//! which opens `/dev/null` in the place of each.

use std::ffi::c_int;
use std::sync::atomic::{AtomicBool, Ordering};

static CLOSED: [AtomicBool; 3] = [const { AtomicBool::new(false) }; 3];

/// Asks for the flags of a descriptor; the same number on every Linux.
const F_GETFD: c_int = 1;

extern "C" {
    fn fcntl(descriptor: c_int, request: c_int, ...) -> c_int;
}

/// Whether the stream (0 input, 1 output, 2 error) was closed at the start.
pub fn was_closed(stream: usize) -> bool {
    CLOSED.get(stream).is_some_and(|closed| closed.load(Ordering::Relaxed))
}

extern "C" fn look() {
    for (descriptor, closed) in (0..).zip(&CLOSED) {
        // SAFETY: F_GETFD takes no third argument, any number may be asked,
        // and nothing is changed; a descriptor that is closed gives -1.
        closed.store(unsafe { fcntl(descriptor, F_GETFD) } == -1, Ordering::Relaxed);
    }
}

// SAFETY: the C library calls every function of this section once, before
// `main`, with arguments that `look` does not take, which the C calling
// convention allows. `look` uses nothing that the standard library must have
// made ready: a call of C and three atomic stores.
#[used]
#[link_section = ".init_array"]
static LOOK_FIRST: extern "C" fn() = look;
