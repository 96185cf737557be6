//! Walks with larger buffers, through the proved library.
//!
//! The library is linked into a program of its own, the walker, so that this crate is built without the
//! archive, and `./run` makes the archive for a session alone that has such a walk. The walker is given
//! the rows that the program of frames was sent, the edits that it accepted and the walk, as frames, and
//! answers the walk alone, in the form in which the program would.

use std::io;
use std::path::Path;
use std::process::{Command, Stdio};

use child::{Running, PATIENCE};
use formats::frames::{Frame, MAX_DIGITS};
use formats::text::path_text;

use crate::ran::Library;

/// With this word alone the walker makes itself ready, and walks nothing.
pub const BUILD: &str = "--build";
/// The bytes of a row frame after its first one.
const MOST_OF_FRAME: usize = MAX_DIGITS / 2 - 1;

/// Has the walker made ready, and gives what it says of its library, if it says something. What is proved
/// and built meanwhile is reported on standard error.
pub fn make_ready(walker: &Path) -> Result<Option<Library>, String> {
    let mut command = Command::new(walker);
    command.arg(BUILD).stdin(Stdio::null()).stderr(Stdio::inherit());
    let failed = |reason: String| format!("{}: {reason}", path_text(walker));
    let output = command.output().map_err(|error| failed(error.to_string()))?;
    if !output.status.success() {
        let status = output.status;
        return Err(failed(format!("the walker of walk large is not ready: {status}")));
    }
    Ok(library_of(&output.stdout))
}

/// The line `library proved SUM`, or `library given SUM` where nothing is known of who made it.
fn library_of(said: &[u8]) -> Option<Library> {
    let words: Vec<&str> = str::from_utf8(said).ok()?.split_whitespace().collect();
    match words[..] {
        ["library", "proved", sum] => Some(Library { sum: sum.to_string(), is_proved: true }),
        ["library", "given", sum] => Some(Library { sum: sum.to_string(), is_proved: false }),
        _ => None,
    }
}

/// What the walker answers to a walk, without LF, over the rows in their packed form and the edits after
/// them.
pub fn walk_large(
    walker: &Path,
    rows: &[u8],
    edits: &[Vec<u8>],
    walk: &[u8],
) -> io::Result<Vec<u8>> {
    let rows = rows.chunks(MOST_OF_FRAME).map(|part| Frame::Row(part.to_vec()).encode());
    let frames = rows.chain(edits.iter().cloned()).chain([walk.to_vec()]);
    let input: Vec<u8> = frames.flat_map(|frame| [frame.as_slice(), b"\n"].concat()).collect();
    let mut running = Running::start(walker, PATIENCE, move |output| output.write_all(&input))?;
    let line = running.next_line()?;
    let mut line = line.ok_or_else(|| io::Error::other("no answer to the walk"))?;
    line.pop_if(|byte| *byte == b'\n');
    running.finish()?;
    Ok(line)
}
