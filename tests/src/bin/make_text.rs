//! Prints an accepted OIL text of about as many bytes as the argument says, of the shape
//! of a real configuration: `make_text BYTES`. The same argument gives the same text.

use std::io::{self, Write};
use tests::configuration::configuration;

fn main() -> io::Result<()> {
    let Some(Ok(bytes)) = std::env::args().nth(1).map(|count| count.parse()) else {
        eprintln!("make_text BYTES");
        std::process::exit(2);
    };
    io::stdout().write_all(configuration(bytes).as_bytes())
}
