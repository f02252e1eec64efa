//! Writes a list of calls with the plain program's answers, for a program in another language to replay.
//!
//!     calls [SEED [CALLS]]
//!
//! The document's cases come first, then CALLS calls (4096 if none are named) from the seed (1). The same numbers give the same
//! text. src/lines.rs says how to read it.

use std::env;
use std::io::{self, BufWriter, Write};

fn main() -> io::Result<()> {
    let argument = |at: usize, default: u64| match env::args().nth(at) {
        Some(text) => text.parse().map_err(|_| io::Error::new(io::ErrorKind::Other, format!("{text} is no number"))),
        None => Ok(default),
    };
    let mut out = BufWriter::new(io::stdout().lock());
    judge::lines::write(&mut out, argument(1, 1)?, argument(2, 4096)?)?;
    out.flush()
}
