//! A fork for each script, because the engine's state is global and never emptied.

use std::io::{self, BufWriter, PipeWriter, Read, Write};

unsafe extern "C" {
    fn fork() -> i32;
    fn waitpid(process: i32, status: *mut i32, options: i32) -> i32;
    fn _exit(status: i32) -> !;
}

/// Runs the work in a child and returns what it wrote, and whether it ended well.
pub fn run(
    work: impl FnOnce(&mut BufWriter<PipeWriter>) -> io::Result<()>,
) -> io::Result<(Vec<u8>, bool)> {
    let (mut reader, writer) = io::pipe()?;
    // SAFETY: the process has one thread, so the child may go on as the parent would.
    match unsafe { fork() } {
        -1 => Err(io::Error::last_os_error()),
        0 => {
            drop(reader);
            let mut out = BufWriter::new(writer);
            let done = work(&mut out).and_then(|()| out.flush());
            // SAFETY: always sound. It leaves the parent's half-filled buffers unwritten.
            unsafe { _exit(if done.is_ok() { 0 } else { 1 }) }
        }
        child => {
            drop(writer);
            let mut written = Vec::new();
            reader.read_to_end(&mut written)?;
            Ok((written, ended_well(child)?))
        }
    }
}

/// The status is 0 only after an exit with 0: an abort or a signal shows in it too.
fn ended_well(child: i32) -> io::Result<bool> {
    let mut status = 0;
    // SAFETY: the child is ours, and the status word is ours to write.
    match unsafe { waitpid(child, &mut status, 0) } {
        -1 => Err(io::Error::last_os_error()),
        _ => Ok(status == 0),
    }
}
