//! Runs that are parked in a file end as if they were not, and nothing of them is
//! lost.

mod common;

use std::fs;
use std::os::unix::fs::symlink;
use std::path::{Path, PathBuf};
use std::process::{Command, Output, Stdio};
use std::thread::sleep;
use std::time::Duration;

use common::{kurvneist, Ran};
use comparison::by_hand;
use comparison::slots::SLOT_LEN;
use kurvneist::{Points, POINTS_LENGTH};
use workbench::points::{rule_name, Listing};

const TICKS: &str = "examples/ticks.book";
const PAYEES: &str = "examples/payees.book";
const LINE: &str = "both(tick(end), tick(end))";

/// An empty folder of this test run.
fn folder(name: &str) -> PathBuf {
    let folder = Path::new(env!("CARGO_TARGET_TMPDIR")).join(name);
    let _ = fs::remove_dir_all(&folder);
    fs::create_dir_all(&folder).unwrap();
    folder
}

/// A name in such a folder.
fn file_in(name: &str) -> String {
    folder(name).join("points").to_str().unwrap().to_owned()
}

fn run(arguments: &[&str], more: &[&str]) -> Ran {
    kurvneist(&[arguments, more].concat())
}

/// Parks a run of the page's line after three entries.
fn park(name: &str, file: &str) -> Ran {
    let schedule = ["--units", "2", "--schedule", "0,0,0"];
    run(
        &["post", TICKS, LINE, "--park", name, "--points", file],
        &schedule,
    )
}

fn resume(name: &str, file: &str, more: &[&str]) -> Ran {
    run(&["resume", name, "--points", file, "--names", TICKS], more)
}

const POSTED: &str =
    "end finished\nrewrites 2\nentries 34\ngranted 2\nkept 0\nterm tick(tick(end))\n";

#[test]
fn a_run_that_is_cut_is_parked_and_gone_on_with() {
    let file = &file_in("points-parked");
    let parked = park("may", file);
    assert_eq!(parked.status, 1);
    assert_eq!(
        parked.output,
        format!("end cut\nrewrites 0\nentries 3\ngranted 1\nkept 0\nterm {LINE}\nparked 'may'\n")
    );
    let told = format!("cut after 3 entries: parked as 'may' in {file}\n");
    assert_eq!(parked.errors, told);
    assert_eq!(fs::read(file).unwrap().len(), POINTS_LENGTH);
    let resumed = resume("may", file, &[]);
    assert_eq!(
        (resumed.status, resumed.output.as_str(), &*resumed.errors),
        (0, POSTED, "")
    );
    assert_eq!(fs::read(file).unwrap(), vec![0; POINTS_LENGTH]);
}

/// Wherever it is cut, and however often, a run ends as the unbroken one.
#[test]
fn parts_end_as_the_whole() {
    let file = &file_in("points-parts");
    let line = "match(bank(payee(\"KOENIG\"), \"4712\"), ledger(payee(\"König GmbH\"), \"4712\"))";
    let post = ["post", PAYEES, line, "--units", "2", "--json"];
    let whole = run(&post, &["--schedule", "round-robin:300"]);
    assert_eq!(whole.status, 0);
    for cut in [0, 1, 22, 41, 90] {
        let first = format!("round-robin:{cut}");
        let named = ["--park", "long one", "--points", file];
        let parked = run(&post, &[&["--schedule", &first], &named[..]].concat());
        assert!(parked.output.ends_with(",\"parked\":\"long one\"}\n"));
        // The rest, in two parts.
        let (begin, turn) = (cut % 2, (cut + 1) % 2);
        let some = format!("{begin},{turn},{begin},{turn}");
        let rest: Vec<String> = (cut + 4..300)
            .map(|entry| (entry % 2).to_string())
            .collect();
        let resume = ["resume", "long one", "--points", file, "--json"];
        let resume = [&resume[..], &["--names", PAYEES, "--schedule"]].concat();
        let again = run(&resume, &[&some]);
        assert_eq!(again.status, 1, "{}", again.errors);
        assert!(again.output.contains(&format!("\"entries\":{},", cut + 4)));
        assert_eq!(run(&resume, &[&rest.join(",")]).output, whole.output);
    }
}

/// Without a schedule the units go on in turn, from unit 0.
#[test]
fn without_a_schedule_a_run_gets_what_it_needs() {
    let file = &file_in("points-turns");
    let book = common::file("points-doubling.book", common::DOUBLING);
    let line = common::doubled(12);
    let post = ["post", &book, &line, "--units", "3"];
    let named = ["--park", "n", "--points", file];
    let given = run(
        &post,
        &[&["--schedule", "round-robin:300"], &named[..]].concat(),
    );
    assert_eq!(given.status, 1, "{}", given.errors);
    let resumed = run(&["resume", "n", "--points", file, "--names", &book], &[]);
    assert_eq!(resumed.status, 0, "{}", resumed.errors);
    assert_eq!(resumed.output, run(&post, &[]).output);
    // A run under a name that isn't cut in the end.
    let whole = run(&post, &named);
    assert_eq!((whole.output, &*whole.errors), (resumed.output, ""));
    assert_eq!(fs::read(file).unwrap(), vec![0; POINTS_LENGTH]);
}

#[test]
fn a_payees_text_and_a_dated_book() {
    let file = &file_in("points-kinds");
    let named = ["--points", file, "--schedule", "0*9"];
    let etoile = run(
        &["post", PAYEES, "Café Étoile", "--payee", "--park", "text"],
        &named,
    );
    assert!(
        etoile.output.ends_with("parked 'text'\n"),
        "{}",
        etoile.errors
    );
    let line = "line(payee(\"König\"), invoice)";
    let dated = [
        "post",
        "examples/suppliers.book",
        line,
        "--day",
        "2026-06-30",
    ];
    let parked = run(&[&dated[..], &["--park", "day"]].concat(), &named);
    assert!(
        parked.output.ends_with("parked 'day'\n"),
        "{}",
        parked.errors
    );
    let list = kurvneist(&["points", file]);
    let rows: Vec<&str> = list.output.lines().collect();
    assert_eq!(rows.len(), 4);
    assert!(rows[0].ends_with("symbols  name"), "{}", rows[0]);
    assert!(rows[1].contains("   -  ") && rows[1].ends_with("  'text'"));
    assert!(rows[2].contains("  2026-06-30  ") && rows[2].ends_with("  'day'"));
    assert_eq!(rows[3], format!("{file}: 2 points, no errors"));

    let whole = kurvneist(&["post", PAYEES, "Café Étoile", "--payee"]);
    let resumed = kurvneist(&["resume", "text", "--points", file, "--names", PAYEES]);
    assert_eq!(resumed.output, whole.output);
    let resumed = kurvneist(&["resume", "day", "--points", file]);
    assert_eq!(resumed.status, 0, "{}", resumed.errors);
    let whole = kurvneist(&dated);
    let (before, _) = whole.output.split_once("term ").unwrap();
    assert!(resumed.output.starts_with(before), "{}", resumed.output);
}

/// A point keeps no names.
#[test]
fn operators_have_names_from_a_text_or_made_up_ones() {
    let file = &file_in("points-names");
    park("n", file);
    let plain = kurvneist(&["resume", "n", "--points", file, "--schedule", "0"]);
    assert!(
        plain.output.contains("term f2(f1(f0), f1(f0))\n"),
        "{}",
        plain.output
    );
    let other = kurvneist(&["resume", "n", "--points", file, "--names", PAYEES]);
    assert_eq!(other.status, 3);
    let told =
        format!("{PAYEES}: its operators' number or arities aren't those of 'n' in {file}\n");
    assert_eq!(other.errors, told);
    let letters = common::file("points-letters.book", "op letters");
    let post = ["post", &letters, "Café", "--payee", "--schedule", "0"];
    run(&post, &["--park", "text", "--points", file]);
    let cut = kurvneist(&["resume", "text", "--points", file, "--schedule", "0"]);
    assert!(cut.output.contains("\nterm \"cafe\"\n"), "{}", cut.output);
}

#[test]
fn points_are_listed_as_an_object() {
    let file = &file_in("points-json");
    park("may", file);
    let listed = kurvneist(&["points", file, "--json"]);
    assert_eq!(listed.status, 0);
    let point = "{\"slot\":1,\"name\":\"may\",\"name_bytes\":[109,97,121],\"book_bytes\":18,\
                 \"day\":null,\"date\":null,\"units\":2,\"budget\":1000000,\"entries\":3,\
                 \"rewrites\":0,\"granted\":1,\"kept\":0,\"symbols\":5}";
    let due =
        format!("{{\"file\":\"{file}\",\"errors\":0,\"points\":[{point}],\"diagnostics\":[]}}\n");
    assert_eq!(listed.output, due);
    let refused = resume("june", file, &["--json"]);
    assert_eq!((refused.status, refused.errors.as_str()), (1, ""));
    assert!(refused
        .output
        .starts_with("{\"error\":{\"kind\":\"refused\",\"refusal\":20,"));
}

/// Only a run that is cut makes a file, or a new point.
#[test]
fn a_run_that_is_not_cut_changes_nothing() {
    let file = &file_in("points-other");
    let post = ["post", TICKS, LINE, "--park", "n", "--points", file];
    let finished = run(&post, &[]);
    assert_eq!((finished.status, &*finished.errors), (0, ""));
    let spent = run(&post, &["--budget", "1"]);
    assert_eq!((spent.status, spent.output.contains("parked")), (1, false));
    assert!(!Path::new(file).exists());
    park("n", file);
    let before = fs::read(file).unwrap();
    let finished = run(&post, &[]);
    assert_eq!(
        finished.errors,
        format!("the older point 'n' in {file} stays\n")
    );
    assert_eq!(fs::read(file).unwrap(), before);
}

#[test]
fn eight_names_and_a_ninth() {
    let file = &file_in("points-ninth");
    for name in ["a", "b", "c", "d", "e", "f", "g", "sixteen bytes is"] {
        assert_eq!(park(name, file).status, 1);
    }
    let before = fs::read(file).unwrap();
    let ninth = park("h", file);
    assert_eq!((ninth.status, ninth.output.as_str()), (1, ""));
    let told = "refused 21: a ninth name is given: eight points are there, and none has it\n";
    let names = "'a', 'b', 'c', 'd', 'e', 'f', 'g', 'sixteen bytes is'";
    assert_eq!(
        ninth.errors,
        format!("{told}{file}: the points are {names}\n")
    );
    assert_eq!(fs::read(file).unwrap(), before);
    let unknown = resume("h", file, &[]);
    assert_eq!(unknown.status, 1);
    assert!(unknown
        .errors
        .ends_with(&format!("{file}: the points are {names}\n")));
    assert_eq!(resume("d", file, &[]).output, POSTED);
    park("h", file);
    let listed = kurvneist(&["points", file]).output;
    assert!(
        listed.lines().nth(4).unwrap().ends_with("  'h'"),
        "{listed}"
    );
}

/// A file with these slots in front.
fn file_of(name: &str, slots: &[Vec<u8>]) -> String {
    let mut bytes = slots.concat();
    bytes.resize(POINTS_LENGTH, 0);
    common::file(name, bytes)
}

#[test]
fn each_broken_rule_is_told_by_its_name() {
    let breaking = by_hand::breaking().into_iter();
    let breaking = breaking.map(|(rule, (what, point))| (rule, what, point.slot()));
    let mut rules = Vec::new();
    for (rule, what, slot) in breaking.chain(by_hand::misformed()) {
        let bytes = [vec![0; SLOT_LEN], slot, vec![0; 6 * SLOT_LEN]].concat();
        let points = Points::from_bytes(bytes).unwrap();
        let listing = Listing::of(&points);
        let found: Vec<_> = listing
            .faults
            .iter()
            .map(|fault| (fault.slot, fault.rule))
            .collect();
        assert_eq!(found, [(2, rule)], "{what}");
        assert!(listing.held.is_empty());
        assert!(listing.is_as_the_engine_says(&points), "{what}");
        let told = listing.text();
        let due = format!("breaks the rule {}: {}", rule_name(rule), rule.words());
        assert!(told.starts_with("slot 2") && told.contains(&due), "{told}");
        rules.push(rule);
    }
    rules.dedup();
    assert_eq!(rules.len(), 17);
    for point in by_hand::meeting() {
        let points = Points::from_bytes(fs::read(file_of("points-met", &[point.slot()])).unwrap());
        let points = points.unwrap();
        let listing = Listing::of(&points);
        assert!(listing.faults.is_empty() && listing.is_as_the_engine_says(&points));
    }
}

#[test]
fn a_file_with_a_broken_point_is_refused_and_left() {
    let (sound, mut other) = (by_hand::lent(), by_hand::lent());
    other.name = b"other".to_vec();
    let mut broken = other.slot();
    broken[16] = 1;
    let file = &file_of("points-broken", &[sound.slot(), broken]);
    let before = fs::read(file).unwrap();
    let fault = "slot 2 breaks the rule name: the name's length is at most 16, and zeros stand \
                 behind the name (refusal 20)";
    let listed = kurvneist(&["points", file]);
    assert_eq!((listed.status, listed.errors.as_str()), (3, ""));
    assert!(listed
        .output
        .ends_with(&format!("  'by hand'\n{fault}\n{file}: 1 point, 1 error\n")));
    let object = kurvneist(&["points", file, "--json"]);
    assert_eq!(object.status, 3);
    let diagnostic = "\"diagnostics\":[{\"slot\":2,\"name\":null,\"rule\":\"name\",\"message\":";
    assert!(object.output.contains(diagnostic), "{}", object.output);
    for refused in [
        park("n", file),
        kurvneist(&["resume", "by hand", "--points", file]),
        kurvneist(&["resume", "other", "--points", file]),
    ] {
        assert_eq!((refused.status, refused.output.as_str()), (1, ""));
        assert!(refused.errors.starts_with("refused 20: "));
        assert!(refused.errors.ends_with(&format!("{file}: {fault}\n")));
    }
    assert_eq!(fs::read(file).unwrap(), before);

    let twice = &file_of("points-twice", &[sound.slot(), other.slot(), sound.slot()]);
    let listed = kurvneist(&["points", twice]);
    assert_eq!(listed.status, 3);
    let fault =
        "slot 3, 'by hand', breaks the rule names: no two points have one name (refusal 20)";
    assert!(listed.output.contains(fault), "{}", listed.output);
}

#[test]
fn a_file_of_another_length_is_refused() {
    for (length, told) in [
        (0, "0 bytes"),
        (1, "1 byte"),
        (POINTS_LENGTH - 1, "524287 bytes"),
        (POINTS_LENGTH + 1, "over 524288 bytes"),
    ] {
        let file = &common::file("points-length", vec![0; length]);
        let due = format!("{file}: has {told}; expected a file of points, which has 524288\n");
        for ran in [
            park("n", file),
            resume("n", file, &[]),
            kurvneist(&["points", file]),
        ] {
            assert_eq!((ran.status, &*ran.output, ran.errors), (3, "", due.clone()));
        }
        assert_eq!(fs::read(file).unwrap().len(), length);
    }
    let missing = &file_in("points-missing");
    for ran in [resume("n", missing, &[]), kurvneist(&["points", missing])] {
        assert_eq!(ran.status, 3);
        assert!(ran.errors.starts_with(&format!("{missing}: ")));
    }
    let nowhere = park("n", "no-such-folder/points");
    assert_eq!(nowhere.status, 3);
    let piped = common::kurvneist_with(&["points", "-"], &vec![0; POINTS_LENGTH]);
    assert_eq!(
        (piped.status, piped.output.as_str()),
        (0, "-: no points, no errors\n")
    );
}

#[test]
fn wrong_command_lines_are_told() {
    let post = ["post", TICKS, LINE];
    let long = "seventeen bytes, ";
    for (more, told) in [
        (&["--park", "n"][..], "--park goes with --points FILE"),
        (&["--points", "f"], "--points goes with --park NAME"),
        (
            &["--points", "f", "--park", long],
            "the name has 17 bytes; expected 1 to 16 (refusal 20)",
        ),
        (
            &["--points", "f", "--park", ""],
            "the name has 0 bytes; expected",
        ),
        (
            &["--points", "-", "--park", "n"],
            "--points -: expected a file",
        ),
        (
            &["--points", TICKS, "--park", "n"],
            "which it would overwrite",
        ),
    ] {
        let ran = run(&post, more);
        assert_eq!((ran.status, ran.output.as_str()), (2, ""), "{more:?}");
        assert!(ran.errors.contains(told), "{}", ran.errors);
    }
    let file = &file_in("points-usage");
    park("n", file);
    for (arguments, told) in [
        (&["resume"][..], "NAME is missing"),
        (&["resume", "n"], "--points FILE is missing"),
        (
            &["resume", "n", "--points", file, "--units", "2"],
            "is no option",
        ),
        (
            &["resume", "n", "--points", file, "--schedule", "0,2"],
            "names unit 2; expected units 0 to 1 (refusal 14)",
        ),
    ] {
        let ran = kurvneist(arguments);
        assert_eq!((ran.status, ran.output.as_str()), (2, ""), "{arguments:?}");
        assert!(ran.errors.contains(told), "{}", ran.errors);
    }
    // A name is no file, whatever is there under it.
    let name = folder("points-place").join("n");
    fs::copy(file, &name).unwrap();
    let done = Command::new(env!("CARGO_BIN_EXE_kurvneist"))
        .args(["resume", "n", "--points", "n"])
        .current_dir(name.parent().unwrap())
        .output()
        .unwrap();
    assert_eq!(done.status.code(), Some(0));
}

/// Any bytes are a name.
#[test]
fn names_need_not_be_text() {
    let file = &file_in("points-bytes");
    let script =
        "\"$0\" post \"$1\" \"$2\" --schedule 0 --park $'\\xff\\x01' --points \"$3\" --json";
    let done = bash(script, &[TICKS, LINE, file]);
    assert_eq!(done.status.code(), Some(1));
    assert!(String::from_utf8_lossy(&done.stdout).ends_with(",\"parked\":null}\n"));
    let listed = kurvneist(&["points", file]);
    assert!(listed.output.contains("  <FF 01>\n"), "{}", listed.output);
    let done = bash("\"$0\" resume $'\\xff\\x01' --points \"$1\"", &[file]);
    assert_eq!(done.status.code(), Some(0));
}

/// A script of bash, with the program and what else it names.
fn bash(script: &str, arguments: &[&str]) -> Output {
    Command::new("bash")
        .args(["-c", script, env!("CARGO_BIN_EXE_kurvneist")])
        .args(arguments)
        .current_dir(env!("CARGO_MANIFEST_DIR"))
        .output()
        .unwrap()
}

fn names_beside(file: &str) -> usize {
    fs::read_dir(Path::new(file).parent().unwrap())
        .unwrap()
        .count()
}

/// A posting that can't be printed leaves its point; a point that can't be
/// written leaves the file.
#[test]
fn a_full_disk_loses_nothing() {
    let file = &file_in("points-full");
    park("n", file);
    let before = fs::read(file).unwrap();
    let done = bash("\"$0\" resume n --points \"$1\" >/dev/full", &[file]);
    assert_eq!(done.status.code(), Some(3));
    let told = String::from_utf8_lossy(&done.stderr).into_owned();
    assert!(told.starts_with("standard output: "), "{told}");
    assert_eq!(fs::read(file).unwrap(), before);
    // So many blocks a file may have that half of the points fit.
    let small = "trap '' XFSZ; ulimit -f 256;";
    for command in [
        "\"$0\" resume n --points \"$1\" --schedule 0",
        "\"$0\" resume n --points \"$1\"",
        "\"$0\" post \"$2\" \"$3\" --schedule 0 --park m --points \"$1\"",
    ] {
        let done = bash(&format!("{small} {command}"), &[file, TICKS, LINE]);
        assert_eq!(done.status.code(), Some(3), "{command}");
        let told = String::from_utf8_lossy(&done.stderr).into_owned();
        assert!(told.starts_with(&format!("{file}: ")), "{told}");
        assert_eq!(fs::read(file).unwrap(), before);
    }
    assert_eq!(names_beside(file), 1);
    assert_eq!(resume("n", file, &[]).output, POSTED);
}

/// A reader that went away has no posting.
#[test]
fn a_reader_that_goes_away_leaves_the_point() {
    let file = &file_in("points-gone");
    park("n", file);
    let script = "{ sleep 0.5; \"$0\" resume n --points \"$1\"; echo $? >&2; } | true";
    let done = bash(script, &[file]);
    let told = String::from_utf8_lossy(&done.stderr).into_owned();
    assert!(told.starts_with("standard output: "), "{told}");
    assert!(told.ends_with("\n3\n"), "{told}");
    assert_eq!(resume("n", file, &[]).output, POSTED);
}

/// Another program's points are not overwritten.
#[test]
fn a_file_that_changes_meanwhile_is_left() {
    let file = &file_in("points-meanwhile");
    park("n", file);
    let entries = Path::new(file).with_file_name("schedule");
    let made = Command::new("mkfifo").arg(&entries).status().unwrap();
    assert!(made.success());
    let schedule = format!("file:{}", entries.display());
    let child = Command::new(env!("CARGO_BIN_EXE_kurvneist"))
        .args(["resume", "n", "--points", file, "--schedule", &schedule])
        .stdout(Stdio::piped())
        .stderr(Stdio::piped())
        .spawn()
        .unwrap();
    // The points are read then, and the program waits for its schedule.
    while names_beside(file) < 3 {
        sleep(Duration::from_millis(5));
    }
    park("m", file);
    let before = fs::read(file).unwrap();
    fs::write(&entries, [0]).unwrap();
    let done = child.wait_with_output().unwrap();
    assert_eq!(done.status.code(), Some(3));
    let told = String::from_utf8_lossy(&done.stderr).into_owned();
    let due = format!("{file}: the file was changed meanwhile, and is left so\n");
    assert_eq!(told, due);
    assert_eq!(fs::read(file).unwrap(), before);
    assert_eq!(names_beside(file), 2);
}

#[test]
fn a_link_and_permissions_are_kept() {
    let file = &file_in("points-link");
    park("n", file);
    let permissions = fs::metadata(file).unwrap().permissions();
    let link = Path::new(file).with_file_name("link");
    symlink("points", &link).unwrap();
    let link = link.to_str().unwrap();
    assert_eq!(park("m", link).status, 1);
    assert!(fs::symlink_metadata(link).unwrap().is_symlink());
    assert_eq!(fs::metadata(file).unwrap().permissions(), permissions);
    assert!(kurvneist(&["points", file]).output.contains(": 2 points,"));
}
