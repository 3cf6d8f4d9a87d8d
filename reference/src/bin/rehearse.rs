//! Reads a script on standard input and prints what becomes of it.

use reference::script::{Outcome, rehearse};
use std::io::{self, BufWriter, Read, Write};
use std::process::ExitCode;

fn main() -> io::Result<ExitCode> {
    let mut script = Vec::new();
    io::stdin().read_to_end(&mut script)?;
    let mut out = BufWriter::new(io::stdout().lock());
    let outcome = rehearse(&script, &mut out)?;
    out.flush()?;
    Ok(match outcome {
        Outcome::Read => ExitCode::SUCCESS,
        Outcome::BadWeights => {
            eprintln!("rehearse: the first line is not `weights W0 W1 ..`");
            ExitCode::FAILURE
        }
    })
}
