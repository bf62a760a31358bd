//! Plans the sheet on standard input and prints the listing, or the refusal.

use std::io::{Read, Write};

fn main() -> std::io::Result<()> {
    let mut input = Vec::new();
    std::io::stdin().read_to_end(&mut input)?;
    std::io::stdout().write_all(&second::program(&input))
}
