//! Prints of a page what ammonia keeps by its own rules, of standard input read whole.
//!
//!     ammonia
//!
//! It builds a tree. Its rules are others than those of firnuubal clean.

use std::io::{self, Read, Write};

fn main() -> io::Result<()> {
    let mut page = String::new();
    io::stdin().lock().read_to_string(&mut page)?;
    io::stdout().lock().write_all(ammonia::clean(&page).as_bytes())
}
