//! Reads cases from standard input and prints one line of answer for each.

use reference::cases::Answerer;
use std::io::{self, Read, Write};
use std::process::ExitCode;

fn main() -> io::Result<ExitCode> {
    let mut input = Vec::new();
    io::stdin().lock().read_to_end(&mut input)?;
    let mut stdout = io::stdout().lock();
    let mut answerer = Answerer::default();
    let mut output = Vec::new();
    let mut at = 0;
    while at < input.len() {
        match answerer.answer(&input, at, &mut output) {
            Ok((_, next)) => at = next,
            Err(malformed) => {
                stdout.write_all(&output)?;
                eprintln!("malformed case at byte {}", malformed.0);
                return Ok(ExitCode::FAILURE);
            }
        }
        if output.len() > 1 << 16 {
            stdout.write_all(&output)?;
            output.clear();
        }
    }
    stdout.write_all(&output)?;
    Ok(ExitCode::SUCCESS)
}
