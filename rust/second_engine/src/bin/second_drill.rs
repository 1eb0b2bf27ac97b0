//! The drill as a program: standard input to standard output. With a word it is a wrong engine's, a mutant of rounds or
//! of turns, so that a class can see on the screen where the error leads: `second_drill NewestStampWins < script`.

use second_engine::{drill, Mutation};
use std::io::{self, Read, Write};
use std::process::ExitCode;

/// The wrong engines whose drills may print something else.
fn mutants() -> impl Iterator<Item = Mutation> {
    Mutation::MUTANTS_OF_ROUNDS.into_iter().chain(Mutation::MUTANTS_OF_TURNS)
}

fn main() -> io::Result<ExitCode> {
    let mutation = match std::env::args().nth(1) {
        None => Mutation::Unmutated,
        Some(name) => match mutants().find(|mutant| format!("{mutant:?}") == name) {
            Some(mutant) => mutant,
            None => {
                eprintln!("no wrong engine is called {name}; there are: {:?}", mutants().collect::<Vec<_>>());
                return Ok(ExitCode::from(2));
            }
        },
    };
    let mut input = Vec::new();
    // One byte over the longest input is enough to know that it is too long.
    io::stdin().lock().take(drill::LONGEST_INPUT as u64 + 1).read_to_end(&mut input)?;
    io::stdout().lock().write_all(&drill::run_mutated(&input, mutation))?;
    Ok(ExitCode::SUCCESS)
}
