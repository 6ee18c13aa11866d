//! Printing that tells when it could not be done.
use std::io::{self, Write};
use std::sync::atomic::{AtomicBool, Ordering};

extern "C" {
    fn fcntl(fd: i32, command: i32, ...) -> i32;
}
const F_GETFD: i32 = 1;

// Where standard output is closed, the runtime of Rust opens /dev/null in its place before main. So it is looked at before that.
static CLOSED: AtomicBool = AtomicBool::new(false);

extern "C" fn look() {
    // SAFETY: declared as the C library has it; with this command it takes no more arguments, reads no memory and changes nothing.
    let flags = unsafe { fcntl(1, F_GETFD) };
    CLOSED.store(flags == -1, Ordering::Relaxed);
}

#[used]
#[link_section = ".init_array"]
static BEFORE_MAIN: extern "C" fn() = look;

/// Prints all of a text, or tells why not.
pub fn print(text: &str) -> Result<(), String> {
    if CLOSED.load(Ordering::Relaxed) {
        return Err("standard output: closed".to_string());
    }
    let mut out = io::stdout();
    out.write_all(text.as_bytes()).and_then(|()| out.flush()).map_err(|e| format!("standard output: {e}"))
}
