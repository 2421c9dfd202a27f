//! Prints what the standard policy keeps of the page on standard input, as firnuubal clean does.
//!
//!     clean < PAGE

use std::io;

fn main() -> io::Result<()> {
    firnuubal::Policy::default().clean_stream(io::stdin().lock(), io::stdout().lock())
}
