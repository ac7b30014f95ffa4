//! Reads framed messages from standard input, and writes the canonical words of each to standard output.
use capnp_canonical::{canonical_words_into, frames, Limits};
use std::io::{self, BufWriter, Read, Write};
use std::process::ExitCode;

fn run() -> io::Result<()> {
    let limits = Limits::default();
    let (mut stream, mut words) = (Vec::new(), Vec::new());
    io::stdin().lock().read_to_end(&mut stream)?;
    let mut output = BufWriter::new(io::stdout().lock());
    for frame in frames(&stream, limits.words) {
        let frame = frame?;
        words.clear();
        canonical_words_into(&frame, limits, &mut words).map_err(|error| frame.refused(error))?;
        output.write_all(&words)?;
    }
    output.flush()
}

fn main() -> ExitCode {
    match run() {
        Ok(()) => ExitCode::SUCCESS,
        Err(error) => {
            eprintln!("{error}");
            ExitCode::from(2)
        }
    }
}
