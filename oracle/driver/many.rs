//! Many scripts in one input. Each is followed by a line `%`, or by a line `%cut` if the newline
//! before that line is no part of the script. No other line of a stream begins with `%`.

use std::fs;
use std::io::{self, BufRead, Write};
use std::path::Path;

use super::books::Room;
use super::child;
use super::session::{Extras, Session};

const END: &[u8] = b"%\n";
const END_CUT: &[u8] = b"%cut\n";

/// The next script, or none at the end of the stream.
pub fn read_script(input: &mut impl BufRead) -> io::Result<Option<Vec<u8>>> {
    let mut script = Vec::new();
    loop {
        let start = script.len();
        input.read_until(b'\n', &mut script)?;
        match &script[start..] {
            [] if start == 0 => return Ok(None),
            END => {
                script.truncate(start);
                return Ok(Some(script));
            }
            END_CUT => {
                script.truncate(start.saturating_sub(1));
                return Ok(Some(script));
            }
            [] => return Err(io::Error::other("the last script has no line % after it")),
            [b'%', ..] => return Err(io::Error::other("a line begins with % but isn't % or %cut")),
            _ => {}
        }
    }
}

/// Writes a script so that `read_script` reads it back.
pub fn write_script(script: &[u8], out: &mut impl Write) -> io::Result<()> {
    out.write_all(script)?;
    match script.last() {
        None | Some(b'\n') => out.write_all(END),
        Some(_) => out.write_all(b"\n").and_then(|()| out.write_all(END_CUT)),
    }
}

/// Runs each script in its own child; names those that end abnormally, and says if none did.
pub fn run(
    room: Room,
    extras: Extras,
    input: &mut impl BufRead,
    out: &mut impl Write,
) -> io::Result<bool> {
    let mut all_well = true;
    let mut number = 0;
    while let Some(script) = read_script(input)? {
        number += 1;
        let (written, well) =
            child::run(|pipe| Session::new(room).run(extras, &mut script.as_slice(), pipe))?;
        out.write_all(&written)?;
        out.write_all(END)?;
        if !well {
            eprintln!("oracle: script {number} ended abnormally");
            all_well = false;
        }
    }
    out.flush()?;
    Ok(all_well)
}

/// Writes each script of a stream, or each script's answers, to a file named by its number.
pub fn split(directory: &Path, input: &mut impl BufRead) -> io::Result<bool> {
    let mut number = 0;
    while let Some(script) = read_script(input)? {
        number += 1;
        fs::write(directory.join(number.to_string()), script)?;
    }
    Ok(true)
}
