//! The tour's commands say what it shows.

use std::fs;
use std::path::{Path, PathBuf};
use std::process::Command;

/// A folder of its own, with the examples, where the tour can write files.
fn folder() -> PathBuf {
    let folder = Path::new(env!("CARGO_TARGET_TMPDIR")).join("tour");
    let examples = folder.join("examples");
    let _ = fs::remove_dir_all(&folder);
    fs::create_dir_all(&examples).unwrap();
    for entry in fs::read_dir("examples").unwrap() {
        let entry = entry.unwrap();
        if entry.path().extension().is_some_and(|kind| kind != "svg") {
            fs::copy(entry.path(), examples.join(entry.file_name())).unwrap();
        }
    }
    folder
}

fn said(command: &str, folder: &Path) -> String {
    let program = Path::new(env!("CARGO_BIN_EXE_kurvneist"));
    let path = format!(
        "{}:{}",
        program.parent().unwrap().display(),
        std::env::var("PATH").unwrap()
    );
    let done = Command::new("sh")
        .args(["-c", command])
        .current_dir(folder)
        .env("PATH", path)
        .output()
        .unwrap();
    String::from_utf8([done.stdout, done.stderr].concat()).unwrap()
}

/// Times differ from run to run.
fn without_times(text: &str) -> String {
    let lines = text.lines().map(|line| match line.rsplit_once(", ") {
        Some((before, time)) if time.ends_with(" s") => before,
        _ => line,
    });
    lines.map(|line| format!("{line}\n")).collect()
}

#[test]
fn every_command_says_what_the_tour_shows() {
    let folder = folder();
    let tour = fs::read_to_string("TOUR.md").unwrap();
    let mut commands = 0;
    for block in tour.split("```console\n").skip(1) {
        let (block, _) = block.split_once("```").unwrap();
        for shown in block.split("$ ").skip(1) {
            let (command, output) = shown.split_once('\n').unwrap();
            let said = said(command, &folder);
            assert_eq!(without_times(&said), without_times(output), "{command}");
            commands += 1;
        }
    }
    assert!(commands >= 10);
    for picture in ["etoile", "helping", "queue", "statement"] {
        let picture = &format!("examples/{picture}.svg");
        let drawn = fs::read_to_string(folder.join(picture)).unwrap();
        assert_eq!(drawn, fs::read_to_string(picture).unwrap());
    }
}
