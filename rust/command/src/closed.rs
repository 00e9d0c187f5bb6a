//! Whether standard output was closed when the command was started. Before `main`, Rust opens the null device in place of a
//! standard output that is closed, and what is written is lost in silence; so it is looked for earlier.

use std::fs::symlink_metadata;
use std::sync::atomic::{AtomicBool, Ordering};

static CLOSED: AtomicBool = AtomicBool::new(false);

/// The loader calls the functions of this section before it hands over to the program.
#[used]
#[link_section = ".init_array"]
static LOOK: extern "C" fn() = look;

extern "C" fn look() {
    CLOSED.store(symlink_metadata("/proc/self/fd/1").is_err(), Ordering::Relaxed);
}

pub fn standard_output() -> bool {
    CLOSED.load(Ordering::Relaxed)
}
