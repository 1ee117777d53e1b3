//! The drill: a script on standard input, its result on standard output.

use std::io::{self, Read, Write};

use second::numbers::{OUTPUT, SCRIPT};
use second::{run, Catalogue, Refusal};

fn main() -> io::Result<()> {
    let mut script = Vec::new();
    // One byte past the limit is enough to know that the script is too long.
    io::stdin().lock().take(SCRIPT as u64 + 1).read_to_end(&mut script)?;
    let mut output = vec![0; OUTPUT];
    let mut out = io::stdout().lock();
    match run(&script, &mut Catalogue::default(), &mut output) {
        Ok(written) => out.write_all(output.get(..written).unwrap_or(&output))?,
        Err(Refusal::Script(line)) => writeln!(out, "refused 27 {line}")?,
        Err(refusal) => writeln!(out, "refused {}", refusal.number())?,
    }
    out.flush()
}
