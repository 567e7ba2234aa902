//! The header and the library as a C program meets them.

use std::fs;
use std::path::{Path, PathBuf};
use std::process::Command;

use kurvneist::{
    raw, Ending, Refusal, Stop, BOUND_ENTRIES, LARGEST_AMOUNT, LONGEST_BOOK, LONGEST_NAME,
    LONGEST_RECORD, MOST_NAMES, MOST_OWNERS, NET_LENGTH, OUTPUT_LENGTH, POINTS_LENGTH, WHOLE,
    WORK_LENGTH,
};

const STRICT: [&str; 5] = ["-std=c99", "-O2", "-Wall", "-Wextra", "-Werror"];

fn made(name: &str) -> PathBuf {
    Path::new(env!("CARGO_TARGET_TMPDIR")).join(name)
}

/// Makes a program of this source, without a warning, and answers what it prints.
fn run(source: &str) -> String {
    let program = made(Path::new(source).file_stem().unwrap().to_str().unwrap());
    let compiled = Command::new("cc")
        .args(STRICT)
        .args(["-Iinclude", "-o"])
        .args([&program, Path::new(source)])
        .arg(env!("KURVNEIST_ARCHIVE"))
        .output()
        .expect("cc is there, since cargo links with it");
    let said = String::from_utf8_lossy(&compiled.stderr);
    assert!(compiled.status.success(), "{source}: {said}");
    let ran = Command::new(program).output().unwrap();
    let said = String::from_utf8(ran.stdout).unwrap();
    assert!(ran.status.success(), "{source}: {} {said}", ran.status);
    said
}

/// `LineTooLong` is KURVNEIST_LINE_TOO_LONG.
fn c_name(name: &str) -> String {
    let parted = name.chars().map(|letter| match letter.is_uppercase() {
        true => format!("_{letter}"),
        false => letter.to_uppercase().to_string(),
    });
    format!("KURVNEIST{}", parted.collect::<String>())
}

#[test]
fn a_null_pointer_with_length_0_is_taken() {
    assert_eq!(run("tests/c/null.c"), "");
}

#[test]
fn names_of_the_header_have_the_numbers_of_the_crate() {
    let refusals = Refusal::ALL
        .iter()
        .map(|refusal| (format!("{refusal:?}"), refusal.number().into()));
    let endings = (0..)
        .map_while(Ending::new)
        .map(|ending| (format!("{ending:?}"), ending.number().into()));
    let stops = (0..)
        .map_while(Stop::new)
        .map(|stop| (format!("Stop{stop:?}"), stop.number().into()));
    let lengths = [
        ("Accepted", 0),
        ("WorkLength", WORK_LENGTH),
        ("NetLength", NET_LENGTH),
        ("OutputLength", OUTPUT_LENGTH),
        ("LongestBook", LONGEST_BOOK),
        ("LongestRecord", LONGEST_RECORD),
        ("AnswerLength", raw::ANSWER_LENGTH),
        ("DoneLength", raw::DONE_LENGTH),
        ("MostOwners", MOST_OWNERS),
        ("LargestAmount", LARGEST_AMOUNT as usize),
        ("Whole", WHOLE.into()),
        ("PairLength", raw::PAIR_LENGTH),
        ("BoundLength", raw::BOUND_LENGTH),
        ("BoundEntries", BOUND_ENTRIES),
        ("PointsLength", POINTS_LENGTH),
        ("MostNames", MOST_NAMES),
        ("LongestName", LONGEST_NAME),
    ];
    let lengths = lengths.map(|(name, value)| (name.to_owned(), value));
    let names = refusals.chain(endings).chain(stops).chain(lengths);
    let checks = names.map(|(name, value)| {
        let name = c_name(&name);
        format!("    if ({name} != {value}) return puts(\"{name}\");\n")
    });
    let checks: String = checks.collect();
    let source = made("names.c");
    let head = "#include \"kurvneist.h\"\n#include <stdio.h>\n";
    fs::write(
        &source,
        format!("{head}int main(void) {{\n{checks}    return 0;\n}}\n"),
    )
    .unwrap();
    assert_eq!(run(source.to_str().unwrap()), "");
}

#[test]
fn the_header_tells_each_condition() {
    let header = fs::read_to_string("include/kurvneist.h").unwrap();
    let header = header.split_whitespace().collect::<Vec<_>>().join(" ");
    for refusal in Refusal::ALL {
        let name = c_name(&format!("{refusal:?}"));
        let due = format!(
            "/* {} */ {name} = {}",
            refusal.condition(),
            refusal.number()
        );
        assert!(header.contains(&due), "{due}");
    }
    let refusals = header.split_once("enum kurvneist_refusal {").unwrap().1;
    let refusals = refusals.split_once('}').unwrap().0;
    assert_eq!(refusals.matches('=').count(), 1 + Refusal::ALL.len());
}

#[test]
fn examples_post_what_they_say() {
    let posted = "ending 0, rewrites 2, FORKs granted 2, kept 0, term 1 1 0\n";
    assert_eq!(run("examples/post.c"), posted);
    assert_eq!(run("examples/payee.c"), "CAFEETOILE\n".repeat(4));
    let lines = "1 1 0\nrefused 11\n1 1 1 0\nrefused 10\n0\n";
    assert_eq!(run("examples/lines.c"), lines);
    let fees = "10100: fee 354, parts 3249 3248 3249\n-10100: fee -354, parts -3249 -3248 -3249\n\
        2000000000000: refused 22\n";
    assert_eq!(run("examples/fees.c"), fees);
    let strict = "the order of the rules is free\nrules 0 and 2 match one term\n";
    assert_eq!(run("examples/strict.c"), strict);
    let points = "parked: ending 3, entries 12, rewrites 0, term 2 1 0 1 0\n\
        resumed: ending 0, entries 33, rewrites 2, term 1 1 0\n";
    assert_eq!(run("examples/points.c"), points);
    let bound = "1 unit: 30 rounds of 1 suffice; ending 0 after 22 entries\n\
        2 units: 30 rounds of 2 suffice; ending 0 after 33 entries\n\
        8 units: 30 rounds of 8 suffice; ending 0 after 129 entries\n\
        not known: one unit ends 2\n";
    assert_eq!(run("examples/bound.c"), bound);
}
