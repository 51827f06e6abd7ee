//! Reads a listing from standard input and prints its plan, or its refusal.

use std::io::{self, Read, Write};

fn main() -> io::Result<()> {
    let mut listing = Vec::new();
    io::stdin().lock().read_to_end(&mut listing)?;
    io::stdout().write_all(reference::calls::print(&listing).as_bytes())
}
