//! The second program as a filter: a job sheet on standard input, the result sheet or the refusal on standard output.

use reference::sheets::solve_sheet;
use std::io::{self, Read, Write};

fn main() -> io::Result<()> {
    let mut text = Vec::new();
    io::stdin().read_to_end(&mut text)?;
    io::stdout().write_all(&solve_sheet(&text))
}
