//! Absence over the last hundred runs as a program: records on standard input, a line of counts for each on standard
//! output. With a word it is a wrong one, a mutant of absence: `second_absence NinetyNineHeld < records`.

use second_engine::absence::{Stream, RECORD};
use second_engine::Mutation;
use std::io::{self, Read, Write};
use std::process::ExitCode;

/// How many bytes are asked for at once, so that memory does not grow with the input.
const PIECE: usize = 1024 * RECORD;

fn main() -> io::Result<ExitCode> {
    let mutation = match std::env::args().nth(1) {
        None => Mutation::Unmutated,
        Some(name) => match Mutation::MUTANTS_OF_ABSENCE.into_iter().find(|mutant| format!("{mutant:?}") == name) {
            Some(mutant) => mutant,
            None => {
                eprintln!("no wrong program is called {name}; there are: {:?}", Mutation::MUTANTS_OF_ABSENCE);
                return Ok(ExitCode::from(2));
            }
        },
    };
    let (mut input, mut output) = (io::stdin().lock(), io::stdout().lock());
    let mut stream = Stream::mutated(mutation);
    let (mut piece, mut lines) = (Vec::with_capacity(PIECE), Vec::new());
    while !stream.is_done() && input.by_ref().take(PIECE as u64).read_to_end(&mut piece)? > 0 {
        stream.take(&piece, &mut lines);
        output.write_all(&lines)?;
        piece.clear();
        lines.clear();
    }
    stream.end(&mut lines);
    output.write_all(&lines)?;
    Ok(ExitCode::SUCCESS)
}
