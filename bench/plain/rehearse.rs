//! Plays the records of standard input, and prints a line for each.

mod book;
mod cluster;
mod record;
mod refusal;
mod seats;

use std::io::{self, BufReader, BufWriter, Read, Write};
use std::process::ExitCode;

use record::{Rehearsal, MAX_RECORDS, RECORD_BYTES};
use refusal::Refusal;

fn main() -> ExitCode {
    let input = BufReader::new(io::stdin().lock());
    let output = BufWriter::new(io::stdout().lock());
    match rehearse(input, output) {
        Ok(()) => ExitCode::SUCCESS,
        Err(error) => {
            eprintln!("rehearse: {error}");
            ExitCode::FAILURE
        }
    }
}

fn rehearse(mut input: impl Read, mut output: impl Write) -> io::Result<()> {
    let mut rehearsal = Rehearsal::default();
    let mut record = Vec::with_capacity(RECORD_BYTES);
    for number in 0..MAX_RECORDS {
        record.clear();
        input.by_ref().take(RECORD_BYTES as u64).read_to_end(&mut record)?;
        if record.is_empty() {
            break;
        }
        match rehearsal.play(&record) {
            Ok(answer) => writeln!(output, "{number} ok {answer}")?,
            Err(Refusal::WantOfMemory) => return Err(io::ErrorKind::OutOfMemory.into()),
            Err(refusal) => writeln!(output, "{number} no {}", refusal.number())?,
        }
        if record.len() < RECORD_BYTES {
            break;
        }
    }
    output.flush()
}
