//! The README's commands work in the order they stand in, and say what it shows. Those that prove are left out: the gate
//! runs them itself, or they are the gate.

use std::fs;
use std::path::{Path, PathBuf};
use std::process::Command;

/// How a command begins that proves something.
const PROVING: [&str; 2] = ["bash ", "rt "];

/// Stands between the outputs of two commands.
const MARK: &str = "@@ status ";

struct Shown {
    command: String,
    /// `None` if the README shows commands alone.
    output: Option<String>,
}

/// The commands of the blocks that are marked as `sh`, each a line, and as `console`, with what they print.
fn shown(readme: &str) -> Vec<Shown> {
    let mut all = Vec::new();
    for block in readme.split("\n```").skip(1).step_by(2) {
        let (kind, lines) = block.split_once('\n').unwrap();
        match kind {
            "sh" => all.extend(lines.lines().map(|line| Shown {
                command: line.to_owned(),
                output: None,
            })),
            "console" => all.extend(lines.split("$ ").skip(1).map(with_output)),
            _ => {}
        }
    }
    all
}

fn with_output(shown: &str) -> Shown {
    let (command, output) = shown.split_once('\n').unwrap_or((shown, ""));
    Shown {
        command: command.to_owned(),
        output: Some(lines(output)),
    }
}

fn lines(text: &str) -> String {
    text.lines().map(|line| format!("{line}\n")).collect()
}

fn copy(from: &Path, to: &Path) {
    if from.is_file() {
        fs::copy(from, to).unwrap();
        return;
    }
    fs::create_dir_all(to).unwrap();
    for entry in fs::read_dir(from).unwrap() {
        let name = entry.unwrap().file_name();
        if name != "target" {
            copy(&from.join(&name), &to.join(&name));
        }
    }
}

/// The repository as it is once its proofs have passed, and whether the programs are there too, as they are in the gate.
fn repository() -> (PathBuf, bool) {
    let folder = Path::new(env!("CARGO_TARGET_TMPDIR")).join("readme");
    let _ = fs::remove_dir_all(&folder);
    let root = Path::new("..");
    for part in ["library", "comparison", "workbench", "examples", "docs"] {
        copy(&root.join(part), &folder.join(part));
    }
    let programs = root.join("target/bin");
    let made = programs.join("reduce").is_file();
    if made {
        copy(&programs, &folder.join("target/bin"));
    }
    let archive = "target/staticlib/libkurvneist.a";
    let named = std::env::var_os("KURVNEIST_LIB").map(|lib| Path::new("../library").join(lib));
    let made_archive = named.map_or(root.join(archive), |lib| lib.join("libkurvneist.a"));
    fs::create_dir_all(folder.join("target/staticlib")).unwrap();
    fs::copy(made_archive, folder.join(archive)).unwrap();
    (folder, made)
}

/// What each command prints, and its status, when one shell runs them all.
fn run(commands: &[&Shown], folder: &Path) -> Vec<(String, String)> {
    let script: String = commands
        .iter()
        .map(|shown| format!("{}\necho \"{MARK}$?\"\n", shown.command))
        .collect();
    let ran = Command::new("sh")
        .args(["-c", &script])
        .current_dir(folder)
        .env_remove("CARGO_TARGET_DIR")
        .env_remove("KURVNEIST_LIB")
        .output()
        .unwrap();
    eprintln!("{}", String::from_utf8_lossy(&ran.stderr));
    let said = String::from_utf8(ran.stdout).unwrap();
    let parts: Vec<&str> = said.split(MARK).collect();
    let outputs = parts.iter().enumerate().map(|(place, part)| match place {
        0 => part,
        _ => part.split_once('\n').unwrap().1,
    });
    let statuses = parts
        .iter()
        .skip(1)
        .map(|part| part.lines().next().unwrap());
    outputs
        .zip(statuses)
        .map(|(output, status)| (output.to_owned(), status.to_owned()))
        .collect()
}

/// A line of dots stands for all that follows.
fn same(shown: &str, said: &str) -> bool {
    match shown.split_once("...\n") {
        Some((begins, _)) => said.starts_with(begins),
        None => said == shown,
    }
}

#[test]
fn every_command_does_what_the_readme_shows() {
    let readme = fs::read_to_string("../README.md").unwrap();
    let all = shown(&readme);
    let (proving, quick): (Vec<&Shown>, Vec<&Shown>) = all
        .iter()
        .partition(|shown| PROVING.iter().any(|word| shown.command.starts_with(word)));
    assert_eq!(proving.len(), 3);
    for shown in proving
        .iter()
        .filter(|shown| shown.command.starts_with("bash "))
    {
        let script = shown.command.split(' ').nth(1).unwrap();
        assert!(Path::new("..").join(script).is_file(), "{script}");
    }
    let (folder, programs) = repository();
    let quick: Vec<&Shown> = quick
        .into_iter()
        .filter(|shown| programs || !shown.command.starts_with("target/bin/"))
        .collect();
    assert!(quick.len() >= 8);
    let told = run(&quick, &folder);
    assert_eq!(told.len(), quick.len());
    for (shown, (said, status)) in quick.iter().zip(told) {
        assert_eq!(status, "0", "{}", shown.command);
        if let Some(output) = &shown.output {
            assert!(same(output, &said), "{}\n{said}", shown.command);
        }
    }
    let drawn = fs::read_to_string(folder.join("target/trace.svg")).unwrap();
    assert_eq!(drawn, fs::read_to_string("../docs/trace.svg").unwrap());
}

#[test]
fn the_example_in_rust_is_the_crates() {
    let readme = fs::read_to_string("../README.md").unwrap();
    let (_, rest) = readme.split_once("```rust\n").unwrap();
    let (code, _) = rest.split_once("```").unwrap();
    let example = fs::read_to_string("../library/examples/post.rs").unwrap();
    assert!(example.ends_with(code));
}

#[test]
fn the_page_of_the_example_is_the_programs() {
    let readme = fs::read_to_string("../README.md").unwrap();
    let page = fs::read_to_string("../examples/finished.out").unwrap();
    assert!(readme.contains(&format!("```\n{page}```\n")));
}

#[test]
fn one_version_of_rust_is_asked_for() {
    let readme = fs::read_to_string("../README.md").unwrap();
    for package in ["library", "comparison", "workbench"] {
        let manifest = fs::read_to_string(format!("../{package}/Cargo.toml")).unwrap();
        let version = manifest
            .lines()
            .find_map(|line| line.strip_prefix("rust-version = "));
        let version = version.expect(package).trim_matches('"');
        assert!(
            readme.contains(&format!("Rust {version} or later")),
            "{package}"
        );
    }
}
