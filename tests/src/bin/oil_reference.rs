//! Document 01's program by the reference: standard input to the normal text, or one line
//! with the refusal.

use std::io::{self, Read, Write};

fn main() -> io::Result<()> {
    let mut text = Vec::new();
    io::stdin().read_to_end(&mut text)?;
    io::stdout().write_all(&tests::normal::program(&text))
}
