//! Holds the proved engine's archive and programs against the second engine: all small crews, all lookups, all groups
//! of validators, all small splits, the longest drill, the long inputs of absences, random cases of every operation and
//! of the boundary, and every mutant, which has to be told from the archive.
//! Usage: compare DRILL ABSENCE [MINUTES]. Without MINUTES each operation gets its number of cases once; with MINUTES
//! it gets them again and again, with new seeds, until the time is over. SEED sets the first seed.

use archive::{boundary, Archive, Boundary};
use comparison::cases::same;
use comparison::mutants::{tell_all, Cases};
use comparison::pair::Pair;
use comparison::{absences, compare, groups, lookups, splits, Engine, Operation, Second};
use generators::{crews, drills};
use std::panic::{catch_unwind, AssertUnwindSafe};
use std::process::exit;
use std::time::{Duration, Instant, SystemTime, UNIX_EPOCH};

/// How many cases of an operation are made in one go. Together they take about a minute and a half on one core.
fn cases_of(operation: Operation) -> u64 {
    match operation {
        Operation::Accept | Operation::Start | Operation::Write | Operation::Read | Operation::Round => 1_000_000,
        Operation::Split => 1_000_000,
        Operation::Marks => 500_000,
        Operation::Run => 5_000,
        Operation::Schedule => 6_000,
        Operation::Drill => 3_000,
        Operation::Absence => 600,
    }
}

fn cases_of_boundary(boundary: Boundary) -> u64 {
    match boundary {
        Boundary::Lengths => 200_000,
        Boundary::Images | Boundary::Splits => 500_000,
        Boundary::Results | Boundary::Messages => 1_000_000,
    }
}

fn main() {
    let arguments: Vec<String> = std::env::args().skip(1).collect();
    let (drill, absence, minutes) = match arguments.as_slice() {
        [drill, absence] => (drill, absence, None),
        [drill, absence, minutes] => (drill, absence, Some(minutes.parse::<u64>().unwrap_or_else(|_| usage()))),
        _ => usage(),
    };
    let archive = Archive { drill: drill.into(), absence: absence.into() };
    let start = Instant::now();
    let first = first_seed(minutes.is_some());
    let outcome = match minutes {
        None => compare_once(&archive, first),
        Some(minutes) => compare_for(&archive, first, Duration::from_secs(60 * minutes)),
    };
    if let Err(difference) = outcome {
        println!("{difference}");
        println!("the engines differ");
        exit(1);
    }
    println!("the engines give the same answers ({} s)", start.elapsed().as_secs());
}

fn usage() -> ! {
    eprintln!("usage: compare DRILL ABSENCE [MINUTES]");
    exit(2);
}

/// The first seed: SEED, or 1, or for a search that goes on one that no search before it had.
fn first_seed(is_new: bool) -> u64 {
    match std::env::var("SEED") {
        Ok(text) => text.parse().unwrap_or_else(|_| panic!("SEED is not a number: {text}")),
        Err(_) if is_new => SystemTime::now().duration_since(UNIX_EPOCH).map_or(1, |since| since.as_secs() << 24),
        Err(_) => 1,
    }
}

fn compare_once(archive: &Archive, first: u64) -> Result<(), String> {
    compare_small_crews(archive)?;
    lookups::compare_all(lookups::every(), archive, &Second::default())?;
    let pair = Pair { engine: archive, other: Some(&Second::default()) };
    groups::check_every(pair)?;
    splits::check_small(pair)?;
    compare_longest_drill(archive)?;
    absences::compare_long(first, archive, &Second::default())?;
    compare_all(archive, first, 1)?;
    tell_all(
        archive,
        Cases {
            accepts: 2_000,
            starts: 10_000,
            writes: 10_000,
            reads: 2_000,
            rounds: 2_000,
            marks: 2_000,
            runs: 100,
            schedules: 400,
            drills: 100,
            splits: 2_000,
            absences: 100,
        },
    )
}

fn compare_for(archive: &Archive, first: u64, time: Duration) -> Result<(), String> {
    let start = Instant::now();
    compare_once(archive, first)?;
    let mut go = 1;
    while start.elapsed() < time {
        compare_all(archive, first, go + 1)?;
        go += 1;
    }
    Ok(())
}

/// Every crew of small values.
fn compare_small_crews(archive: &Archive) -> Result<(), String> {
    let mut count = 0;
    for crew in crews::small() {
        same(&crew, archive.accept(crew), Second::default().accept(crew))?;
        count += 1;
    }
    println!("small crews: all {count} the same");
    Ok(())
}

/// The longest run of the drill, which random scripts hardly come to.
fn compare_longest_drill(archive: &Archive) -> Result<(), String> {
    let script = drills::longest();
    let text = |output: Vec<u8>| String::from_utf8_lossy(&output).into_owned();
    same(&"the longest script", text(archive.drill(&script)), text(Second::default().drill(&script)))?;
    println!("longest drill: the same");
    Ok(())
}

/// The cases of this go of every operation, each go with the seeds that follow those of the one before.
fn compare_all(archive: &Archive, first: u64, go: u64) -> Result<(), String> {
    for operation in Operation::ALL {
        compare_seeds(&format!("{operation:?}"), first, go, cases_of(operation), |seed| {
            compare(operation, seed, archive, &Second::default())
        })?;
    }
    for part in Boundary::ALL {
        let cases = cases_of_boundary(part);
        compare_seeds(&format!("boundary, {part:?}"), first, go, cases, |seed| boundary::compare(part, seed))?;
    }
    Ok(())
}

fn compare_seeds(
    name: &str,
    first: u64,
    go: u64,
    cases: u64,
    compare_seed: impl Fn(u64) -> Result<(), String>,
) -> Result<(), String> {
    let cases = match std::env::var("CASES") {
        Ok(text) => text.parse().unwrap_or_else(|_| panic!("CASES is not a number: {text}")),
        Err(_) => cases,
    };
    let from = first + (go - 1) * cases;
    let start = Instant::now();
    for seed in from..from + cases {
        // A panic is an answer that no engine may give; its message has been printed.
        catch_unwind(AssertUnwindSafe(|| compare_seed(seed)))
            .unwrap_or_else(|_| Err(format!("{name}, seed {seed}: a panic")))?;
    }
    println!("{name}: first seed {from}, {cases} cases the same ({:.1} s)", start.elapsed().as_secs_f64());
    Ok(())
}
