//! Standard input and output, where they can be used.
//!
//! Before `main` Rust opens `/dev/null` in place of each that is closed, and what
//! can't be read or written there counts as an end of the input or as done. So
//! their flags are taken before that, when the program is loaded.

use std::io;
use std::sync::atomic::{AtomicI32, Ordering};

const F_GETFL: i32 = 3;
const O_ACCMODE: i32 = 3;
const O_RDONLY: i32 = 0;
const O_WRONLY: i32 = 1;

extern "C" {
    fn fcntl(descriptor: i32, command: i32, ...) -> i32;
}

/// The flags of the descriptors 0 and 1, negative where they are closed.
static FLAGS: [AtomicI32; 2] = [AtomicI32::new(-1), AtomicI32::new(-1)];

/// The loader calls what stands in this section before `main`.
#[used]
#[link_section = ".init_array"]
static WHEN_LOADED: extern "C" fn() = take_flags;

extern "C" fn take_flags() {
    for (descriptor, flags) in (0..).zip(&FLAGS) {
        // SAFETY: the call only reads the flags of a descriptor, open or not.
        flags.store(unsafe { fcntl(descriptor, F_GETFL) }, Ordering::Relaxed);
    }
}

/// Whether a descriptor is open, and for more than this one way.
fn usable(descriptor: usize, other_way: i32) -> bool {
    let flags = FLAGS[descriptor].load(Ordering::Relaxed);
    flags >= 0 && flags & O_ACCMODE != other_way
}

/// Standard input, if it can be read.
pub fn input() -> io::Result<io::Stdin> {
    match usable(0, O_WRONLY) {
        true => Ok(io::stdin()),
        false => Err(io::Error::other("standard input can't be read")),
    }
}

/// Standard output, if it can be written.
pub fn output() -> io::Result<io::Stdout> {
    match usable(1, O_RDONLY) {
        true => Ok(io::stdout()),
        false => Err(io::Error::other("standard output can't be written")),
    }
}
