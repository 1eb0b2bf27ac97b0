//! Prints the longest script of the drill, for those who want to run it: `longest_script > script`.

use generators::drills;
use std::io::{self, Write};

fn main() -> io::Result<()> {
    io::stdout().lock().write_all(&drills::longest())
}
