//! Nothing is lost: not inputs, not outputs, not a name's bytes.

mod common;

use std::ffi::{OsStr, OsString};
use std::fs;
use std::io::{BufRead, BufReader, Read, Write};
use std::os::unix::ffi::OsStrExt;
use std::os::unix::fs::{symlink, PermissionsExt};
use std::path::{Path, PathBuf};
use std::process::{Child, Command, Stdio};

use common::{kurvneist, kurvneist_with};

const BOOK: &str = "examples/ticks.book";
const LINE: &str = "both(tick(end), end)\n";

/// An empty folder of this test run.
fn folder(name: &str) -> PathBuf {
    let folder = Path::new(env!("CARGO_TARGET_TMPDIR")).join(name);
    let _ = fs::remove_dir_all(&folder);
    fs::create_dir_all(&folder).unwrap();
    folder
}

fn names(folder: &Path) -> Vec<OsString> {
    let entries = fs::read_dir(folder).unwrap();
    let mut names: Vec<_> = entries.map(|entry| entry.unwrap().file_name()).collect();
    names.sort();
    names
}

fn text(path: &Path) -> &str {
    path.to_str().unwrap()
}

fn program(arguments: &[&OsStr]) -> Command {
    let mut command = Command::new(env!("CARGO_BIN_EXE_kurvneist"));
    command
        .args(arguments)
        .current_dir(env!("CARGO_MANIFEST_DIR"))
        .stdin(Stdio::piped())
        .stdout(Stdio::piped())
        .stderr(Stdio::piped());
    command
}

fn spawned(arguments: &[&str]) -> Child {
    let arguments: Vec<&OsStr> = arguments.iter().map(OsStr::new).collect();
    program(&arguments).spawn().unwrap()
}

#[test]
fn an_output_that_is_an_input_is_refused() {
    let folder = folder("input-is-output");
    let lines = folder.join("lines");
    fs::write(&lines, LINE).unwrap();
    fs::copy(BOOK, folder.join("book")).unwrap();
    let before = fs::read(folder.join("book")).unwrap();
    let [soft, hard, there] = ["soft", "hard", "nowhere/../lines"].map(|name| folder.join(name));
    symlink("lines", &soft).unwrap();
    fs::hard_link(&lines, &hard).unwrap();
    fs::create_dir(folder.join("nowhere")).unwrap();
    let book = folder.join("book");
    for output in [&lines, &soft, &hard, &there, &book] {
        let ran = kurvneist(&["batch", text(&book), text(&lines), "-o", text(output)]);
        assert_eq!(ran.status, 2, "{output:?}\n{}", ran.errors);
        assert!(
            ran.errors.contains("which it would overwrite"),
            "{}",
            ran.errors
        );
    }
    let packed = folder.join("packed");
    for wrong in [
        ["book", text(&book), "-o", text(&book)].as_slice(),
        &["text", text(&packed), "-o", text(&packed)],
        &["trace", text(&book), "end", "--svg", text(&book)],
        &[
            "batch",
            BOOK,
            "-",
            "--packed",
            "--names",
            text(&book),
            "-o",
            text(&book),
        ],
    ] {
        fs::write(&packed, [1, 0, 0]).unwrap();
        assert_eq!(kurvneist(wrong).status, 2, "{wrong:?}");
        assert_eq!(fs::read(&packed).unwrap(), [1, 0, 0]);
    }
    let schedule = folder.join("schedule");
    fs::write(&schedule, [0; 99]).unwrap();
    let form = format!("file:{}", text(&schedule));
    let wrong = [
        "batch",
        BOOK,
        text(&lines),
        "--schedule",
        &form,
        "-o",
        text(&schedule),
    ];
    assert_eq!(kurvneist(&wrong).status, 2);
    assert_eq!(fs::read(&schedule).unwrap(), [0; 99]);
    assert_eq!(fs::read(&book).unwrap(), before);
    assert_eq!(fs::read_to_string(&lines).unwrap(), LINE);
}

/// Also where the shell has opened the file: `< lines -o lines`, `>> lines`.
#[test]
fn standard_input_and_output_are_files_too() {
    let folder = folder("standard-files");
    let lines = folder.join("lines");
    fs::write(&lines, LINE).unwrap();
    let arguments = ["batch", BOOK, "-", "-o", text(&lines)].map(OsStr::new);
    let done = program(&arguments)
        .stdin(fs::File::open(&lines).unwrap())
        .output()
        .unwrap();
    assert_eq!(done.status.code(), Some(2));
    // A batch that reads what it appends would go on for ever.
    let script = "ulimit -f 1000; exec \"$0\" batch \"$1\" \"$2\" >>\"$2\"";
    let done = script_run(script, &lines);
    assert_eq!(done.status.code(), Some(2));
    assert_eq!(fs::read_to_string(&lines).unwrap(), LINE);
    let arguments = ["batch", BOOK, "/dev/null", "-o", "/dev/null"].map(OsStr::new);
    let done = program(&arguments).output().unwrap();
    assert_eq!(
        done.status.code(),
        Some(0),
        "what keeps nothing loses nothing"
    );
}

/// Waits until the output stands beside its name.
fn wait_for_part(folder: &Path) {
    for _ in 0..500 {
        let part = |name: &OsString| name.as_bytes().ends_with(b".part");
        if names(folder).iter().any(part) {
            return;
        }
        std::thread::sleep(std::time::Duration::from_millis(10));
    }
    panic!("no part of an output in {folder:?}");
}

#[test]
fn an_interrupted_batch_leaves_the_old_file() {
    let folder = folder("interrupted");
    let [old, new] = ["old", "new"].map(|name| folder.join(name));
    fs::write(&old, "yesterday's\n").unwrap();
    for output in [&old, &new] {
        let mut child = spawned(&["batch", BOOK, "-", "-o", text(output)]);
        let mut input = child.stdin.take().unwrap();
        input.write_all(LINE.repeat(5000).as_bytes()).unwrap();
        wait_for_part(&folder);
        assert_ne!(fs::read_to_string(output).unwrap_or_default(), LINE);
        child.kill().unwrap();
        child.wait().unwrap();
        for name in names(&folder) {
            if name.as_bytes().ends_with(b".part") {
                fs::remove_file(folder.join(name)).unwrap();
            }
        }
    }
    assert_eq!(fs::read_to_string(&old).unwrap(), "yesterday's\n");
    assert_eq!(names(&folder), ["old"]);
}

#[test]
fn a_failed_batch_leaves_the_old_file_and_no_other() {
    let folder = folder("failed");
    let output = folder.join("postings");
    fs::write(&output, "yesterday's\n").unwrap();
    for wrong in [["examples/mistaken.book", "-"], [BOOK, "examples"]] {
        let ran = kurvneist(&["batch", wrong[0], wrong[1], "-o", text(&output)]);
        assert_eq!(ran.status, 3, "{}", ran.errors);
        assert_eq!(fs::read_to_string(&output).unwrap(), "yesterday's\n");
        assert_eq!(names(&folder), ["postings"]);
    }
}

#[test]
fn a_finished_batch_keeps_link_and_permissions() {
    let folder = folder("finished");
    let [link, file] = ["link", "file"].map(|name| folder.join(name));
    fs::write(&file, "yesterday's\n").unwrap();
    fs::set_permissions(&file, fs::Permissions::from_mode(0o640)).unwrap();
    symlink("file", &link).unwrap();
    symlink("later", folder.join("dangling")).unwrap();
    let long = folder.join("n".repeat(250));
    for output in [&link, &folder.join("dangling"), &long] {
        let ran = kurvneist_with(&["batch", BOOK, "-", "-o", text(output)], LINE.as_bytes());
        assert_eq!(ran.status, 0, "{}", ran.errors);
    }
    for name in [&file, &folder.join("later"), &long] {
        assert_eq!(fs::read_to_string(name).unwrap(), "tick(end)\n");
    }
    let kept = fs::metadata(&file).unwrap().permissions().mode();
    assert_eq!(kept & 0o777, 0o640);
    assert!(fs::symlink_metadata(&link).unwrap().is_symlink());
    assert_eq!(names(&folder).len(), 5, "{:?}", names(&folder));
}

/// A reader that goes away, as `head -1` does.
#[test]
fn a_reader_that_goes_away_is_no_error() {
    let folder = folder("gone");
    let lines = folder.join("lines");
    fs::write(&lines, LINE.repeat(200_000)).unwrap();
    for jobs in ["1", "2"] {
        let mut child = spawned(&["batch", BOOK, text(&lines), "--jobs", jobs]);
        let mut first = String::new();
        let mut output = BufReader::new(child.stdout.take().unwrap());
        output.read_line(&mut first).unwrap();
        assert_eq!(first, "tick(end)\n");
        drop(output);
        let mut errors = String::new();
        let mut told = child.stderr.take().unwrap();
        told.read_to_string(&mut errors).unwrap();
        assert_eq!(child.wait().unwrap().code(), Some(0));
        assert_eq!(errors, "");
    }
    for ends in ["2>&1", "2>&1 >/dev/null"] {
        let script = format!("\"$0\" batch \"$1\" \"$2\" {ends} | true; echo ${{PIPESTATUS[0]}}");
        let done = script_run(&script, &lines);
        assert_eq!(String::from_utf8_lossy(&done.stdout), "0\n");
    }
}

/// A script of bash, with the program, a book and lines.
fn script_run(script: &str, lines: &Path) -> std::process::Output {
    Command::new("bash")
        .args(["-c", script, env!("CARGO_BIN_EXE_kurvneist"), BOOK])
        .arg(lines)
        .output()
        .unwrap()
}

#[test]
fn a_full_disk_is_told() {
    let full = fs::OpenOptions::new()
        .write(true)
        .open("/dev/full")
        .unwrap();
    let arguments = ["book", BOOK].map(OsStr::new);
    let done = program(&arguments).stdout(full).output().unwrap();
    assert_eq!(done.status.code(), Some(3));
    let ran = kurvneist_with(&["batch", BOOK, "-", "-o", "/dev/full"], LINE.as_bytes());
    assert_eq!(ran.status, 3);
    assert!(ran.errors.starts_with("/dev/full: "), "{}", ran.errors);
}

#[test]
fn names_need_not_be_utf8() {
    let folder = folder("names");
    let named = |bytes: &[u8]| folder.join(OsStr::from_bytes(bytes));
    let [book, lines, output] = [b"b\xff", b"l\xfe", b"o\xfd"].map(|name| named(name));
    let [schedule, packed, picture] = [b"s\xfc", b"p\xfb", b"v\xfa"].map(|name| named(name));
    fs::copy(BOOK, &book).unwrap();
    fs::write(&lines, LINE).unwrap();
    fs::write(&schedule, [0; 99]).unwrap();
    let mut form = OsString::from("--schedule=file:");
    form.push(&schedule);
    let word = OsStr::new;
    let (book, lines, packed) = (book.as_os_str(), lines.as_os_str(), packed.as_os_str());
    for arguments in [
        [
            word("batch"),
            book,
            lines,
            word("-o"),
            output.as_os_str(),
            &form,
        ]
        .as_slice(),
        &[word("book"), book, word("-o"), packed],
        &[word("text"), packed, word("--names"), book],
        &[
            word("trace"),
            book,
            word("end"),
            word("--svg"),
            picture.as_os_str(),
        ],
    ] {
        let done = program(arguments).output().unwrap();
        let errors = String::from_utf8_lossy(&done.stderr);
        assert_eq!(done.status.code(), Some(0), "{arguments:?} {errors}");
    }
    assert_eq!(fs::read_to_string(&output).unwrap(), "tick(end)\n");
    assert_eq!(names(&folder).len(), 6);
    let done = program(&[word("book"), named(b"\xff").as_os_str()])
        .output()
        .unwrap();
    assert_eq!(done.status.code(), Some(3));
    let line = OsStr::from_bytes(b"\xff");
    let done = program(&[word("post"), book, line]).output().unwrap();
    assert_eq!(done.status.code(), Some(1), "a line is not replaced");
    let units = OsStr::from_bytes(b"--units=\xff");
    let done = program(&[word("post"), book, word("end"), units]);
    assert_eq!({ done }.output().unwrap().status.code(), Some(2));
}

/// A schedule's file that isn't there is a file that can't be used.
#[test]
fn a_missing_schedule_is_a_file() {
    let ran = kurvneist(&["post", BOOK, "end", "--schedule", "file:not:there"]);
    assert_eq!(ran.status, 3);
    assert!(ran.errors.starts_with("not:there: "), "{}", ran.errors);
}

/// With so many KiB of memory; what a program needs by itself is about 6000.
fn within(kibibytes: usize, arguments: &[&str]) -> std::process::Output {
    let script = format!("ulimit -v {kibibytes}; exec \"$0\" \"$@\"");
    Command::new("sh")
        .args(["-c", &script, env!("CARGO_BIN_EXE_kurvneist")])
        .args(arguments)
        .current_dir(env!("CARGO_MANIFEST_DIR"))
        .output()
        .unwrap()
}

#[test]
fn memory_does_not_grow_with_the_file() {
    let folder = folder("large");
    let [lines, output] = ["lines", "output"].map(|name| folder.join(name));
    let comment = format!("# {}\n", "-".repeat(997));
    let input = comment.repeat(64 << 10) + LINE;
    fs::write(&lines, &input).unwrap();
    let done = within(
        32 << 10,
        &["batch", BOOK, text(&lines), "-o", text(&output)],
    );
    let errors = String::from_utf8_lossy(&done.stderr);
    assert_eq!(done.status.code(), Some(0), "{errors}");
    assert!(errors.starts_with("65537 lines: 1 posted, 0 not, 65536 blank"));
    let written = fs::read_to_string(&output).unwrap();
    assert!(written == comment.repeat(64 << 10) + "tick(end)\n");
    fs::remove_dir_all(folder).unwrap();
}

#[test]
fn one_long_line_is_refused_unread() {
    let folder = folder("long");
    let lines = folder.join("lines");
    let long = "tick(".repeat(10 << 20);
    let comment = format!("#{}\n", "-".repeat((1 << 20) - 1));
    for form in ["--quiet", "--payee"] {
        fs::write(&lines, format!("{long}\nend\n{comment}-{comment}{long}")).unwrap();
        let book = match form {
            "--payee" => "examples/payees.book",
            _ => BOOK,
        };
        let done = within(32 << 10, &["batch", book, text(&lines), form]);
        assert_eq!(done.status.code(), Some(1));
        let told = "! the line has over 1048576 bytes; expected at most so many\n";
        let end = if form == "--payee" {
            "\"end\"\n"
        } else {
            "end\n"
        };
        let expected = [told, end, &comment, told, told].concat();
        assert!(String::from_utf8(done.stdout).unwrap() == expected);
    }
    fs::remove_dir_all(folder).unwrap();
}

/// The scripts with a stand-in for the prover, beside a program of an earlier
/// check.
fn example(prover: &str) -> (Option<i32>, String) {
    let folder = folder("example");
    let program = "#!/bin/sh\necho a page\n".to_owned();
    let script = folder.join("tools/example");
    for (path, content) in [
        (&script, fs::read_to_string("../tools/example").unwrap()),
        (
            &folder.join("tools/build"),
            fs::read_to_string("../tools/build").unwrap(),
        ),
        (&folder.join("crates/reduce/src/main.rt"), String::new()),
        (&folder.join("crates/reduce/stdin"), String::new()),
        (&folder.join("crates/reduce/out/reduce"), program.clone()),
        (&folder.join("bin/rt"), format!("#!/bin/sh\n{prover}\n")),
        (&folder.join("target/bin/reduce"), program),
        (&folder.join("examples/finished.in"), String::new()),
    ] {
        fs::create_dir_all(path.parent().unwrap()).unwrap();
        fs::write(path, content).unwrap();
        fs::set_permissions(path, fs::Permissions::from_mode(0o755)).unwrap();
    }
    let path = format!("{}:{}", text(&folder.join("bin")), env!("PATH"));
    let done = Command::new("bash")
        .arg(script)
        .env("PATH", path)
        .output()
        .unwrap();
    (done.status.code(), String::from_utf8(done.stdout).unwrap())
}

#[test]
fn after_a_failed_proof_no_program_is_run() {
    let made = "cp ../../target/bin/reduce out/reduce";
    assert_eq!(example(made), (Some(0), "a page\n".to_owned()));
    let failed = [
        format!("{made}; exit 1"),
        format!("{made}; kill -9 $$"),
        format!("{made}; rm out/reduce"),
        "exit 0".to_owned(),
        "exit 127".to_owned(),
    ];
    for prover in failed {
        let (status, output) = example(&prover);
        assert_eq!((status, output.contains("a page")), (Some(1), false));
    }
}
