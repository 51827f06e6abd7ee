//! Reads a listing from standard input and prints its buying page with the
//! spare of the one argument, or its refusal.

use reference::{calls, page};
use std::ffi::OsString;
use std::io::{self, Read, Write};
use std::process::ExitCode;

fn main() -> io::Result<ExitCode> {
    let arguments: Vec<OsString> = std::env::args_os().skip(1).collect();
    let spare = match &arguments[..] {
        [spare] => page::number(spare.as_encoded_bytes()),
        _ => None,
    };
    let Some(spare) = spare else {
        eprintln!("usage: buying SPARE < LISTING");
        return Ok(ExitCode::FAILURE);
    };
    let mut listing = Vec::new();
    io::stdin().lock().read_to_end(&mut listing)?;
    io::stdout().write_all(calls::print_page(&listing, spare).as_bytes())?;
    Ok(ExitCode::SUCCESS)
}
