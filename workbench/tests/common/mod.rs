//! What several tests need.
#![allow(dead_code)]

pub mod json;

use std::io::Write;
use std::path::PathBuf;
use std::process::{Command, Stdio};

use comparison::draft::{Draft, OperatorDraft, RuleDraft, Symbol};
use comparison::random::Random;

/// What the program did: its status, standard output and standard error.
pub struct Ran {
    pub status: i32,
    pub output: String,
    pub errors: String,
}

pub fn kurvneist(arguments: &[&str]) -> Ran {
    kurvneist_with(arguments, b"")
}

pub fn kurvneist_with(arguments: &[&str], input: &[u8]) -> Ran {
    let mut child = Command::new(env!("CARGO_BIN_EXE_kurvneist"))
        .args(arguments)
        .current_dir(env!("CARGO_MANIFEST_DIR"))
        .stdin(Stdio::piped())
        .stdout(Stdio::piped())
        .stderr(Stdio::piped())
        .spawn()
        .unwrap();
    // A command that doesn't read its input may have gone already.
    let _ = child.stdin.take().unwrap().write_all(input);
    let done = child.wait_with_output().unwrap();
    Ran {
        status: done.status.code().unwrap(),
        output: String::from_utf8(done.stdout).unwrap(),
        errors: String::from_utf8(done.stderr).unwrap(),
    }
}

/// A file of this test run with that content.
pub fn file(name: &str, content: impl AsRef<[u8]>) -> String {
    let path = PathBuf::from(env!("CARGO_TARGET_TMPDIR")).join(name);
    std::fs::write(&path, content).unwrap();
    path.to_str().unwrap().to_owned()
}

/// A book by which a short line has a long run: `double` becomes twice as many
/// for each tick.
pub const DOUBLING: &str = "\
op end/0 op tick double/1 op both/2 ({1 2} 0)
var X
rule double(end) = end
rule double(tick(X)) = both(double(X), double(X))
rule both(end, end) = end
";

/// Its run takes about 14 entries for each part that it becomes: over 32,768 for
/// 12 ticks, over 262,144 for 15.
pub fn doubled(ticks: usize) -> String {
    let (open, close) = ("tick(".repeat(ticks), ")".repeat(ticks));
    format!("double({open}end{close})")
}

/// The rewrites of that run.
pub fn doubled_rewrites(ticks: u32) -> u64 {
    3 * (1 << ticks) - 2
}

/// Books at the layout's limits: 255 operators, of each arity, with lists of
/// 31 items, and 255 rules with sides of 64 symbols and 16 variables.
pub fn largest_draft(random: &mut Random) -> Draft {
    let operators: Vec<OperatorDraft> = (0..255)
        .map(|number| OperatorDraft {
            arity: (number % 8) as u8,
            strategy: long_strategy(random, (number % 8) as u8),
        })
        .collect();
    let mut draft = Draft::new(operators, Vec::new());
    for _ in 0..255 {
        let mut variables: Vec<u8> = (0..16).collect();
        random.shuffle(&mut variables);
        let left = side(random, &draft, &variables);
        variables.reverse();
        let right = side(random, &draft, &variables);
        draft.rules.push(RuleDraft::new(left, right));
    }
    draft
}

fn long_strategy(random: &mut Random, arity: u8) -> Option<Vec<u8>> {
    if random.one_in(4) {
        return None;
    }
    let mut items = Vec::new();
    while items.len() < 24 {
        match random.below(3) {
            0 => items.push(0),
            _ if arity == 0 => items.extend([8, 9]),
            1 => items.push(random.between(1, arity.into()) as u8),
            _ => {
                let pair = [(); 2].map(|()| random.between(1, arity.into()) as u8);
                items.extend([8, pair[0], pair[1], 9]);
            }
        }
    }
    items.resize(31, 0);
    Some(items)
}

/// 64 symbols: 48 of operators with arguments, and 16 variables. Operators
/// with arity 1 to 7 bring the number of parts still due from 1 to 16.
fn side(random: &mut Random, draft: &Draft, variables: &[u8]) -> Vec<Symbol> {
    let mut arities = vec![1; 48];
    for _ in 0..15 {
        let place = loop {
            let place = random.below(48);
            if arities[place] < 7 {
                break place;
            }
        };
        arities[place] += 1;
    }
    random.shuffle(&mut arities);
    let mut symbols: Vec<Symbol> = arities
        .into_iter()
        .map(|arity| {
            let numbers: Vec<u8> = (0..255).filter(|number| number % 8 == arity).collect();
            Symbol::Operator(*random.pick(&numbers))
        })
        .collect();
    symbols.extend(variables.iter().copied().map(Symbol::Variable));
    assert_eq!(draft.part_end(&symbols, 0), Some(64));
    symbols
}
