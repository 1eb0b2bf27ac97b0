//! The stored scripts: the second engine's drill prints the output that stands beside each, and the program crate
//! `lessons`, which runs the proved drill on them, is given every script and held to these very outputs.

use second_engine::drill::run;
use std::collections::BTreeSet;
use std::fs;
use std::path::PathBuf;

fn repository() -> PathBuf {
    PathBuf::from(env!("CARGO_MANIFEST_DIR")).join("../..")
}

/// The names with this ending in the folder scripts, in order, without the ending.
fn stored(ending: &str) -> BTreeSet<String> {
    let folder = fs::read_dir(repository().join("scripts")).expect("the folder scripts is there");
    let names = folder.map(|entry| entry.expect("the folder can be read").file_name().into_string().expect("a name"));
    names.filter_map(|name| name.strip_suffix(ending).map(str::to_string)).collect()
}

fn read(path: &str) -> Vec<u8> {
    fs::read(repository().join(path)).unwrap_or_else(|error| panic!("{path}: {error}"))
}

#[test]
fn every_script_prints_its_output() {
    assert_eq!(stored(".txt"), stored(".out"));
    for name in stored(".txt") {
        let (script, output) = (read(&format!("scripts/{name}.txt")), read(&format!("scripts/{name}.out")));
        assert_eq!(String::from_utf8_lossy(&run(&script)), String::from_utf8_lossy(&output), "{name}");
    }
}

#[test]
fn lessons_runs_every_script_and_is_held_to_its_output() {
    let (mut args, mut stdout) = (Vec::new(), Vec::new());
    for name in stored(".txt") {
        args.extend_from_slice(format!("{name}.txt\n").as_bytes());
        stdout.extend_from_slice(format!("{name}.txt\n").as_bytes());
        stdout.extend_from_slice(&read(&format!("scripts/{name}.out")));
    }
    // The two scripts that the program makes itself.
    stdout.extend_from_slice(b"65,536 bytes\nend\n65,537 bytes\nlong\n");
    assert_eq!(String::from_utf8_lossy(&args), String::from_utf8_lossy(&read("crates/lessons/args")));
    assert_eq!(String::from_utf8_lossy(&stdout), String::from_utf8_lossy(&read("crates/lessons/stdout")));
}
