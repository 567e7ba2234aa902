//! What docs/FORMAT.md says of points, held to the model.

mod common;

use std::fs;

use common::*;
use comparison::model::*;
use comparison::point_rules::{Rule, OF_RUNS};
use comparison::points::{park, resume};
use comparison::slots::{BOOK_AT, POINTS_LEN, SLOT_LEN};
use comparison::subject::Question;

const NONE: Lengths = Lengths::LEAST;

fn format() -> String {
    fs::read_to_string("../docs/FORMAT.md").unwrap()
}

fn section(format: &str) -> &str {
    let (_, rest) = format.split_once("## Named points\n").unwrap();
    rest.split_once("\n## ").unwrap().0
}

/// The cells of each row of the table with this head.
fn table<'a>(format: &'a str, head: &str) -> Vec<Vec<&'a str>> {
    let (_, rest) = format.split_once(head).expect(head);
    let rows = rest.lines().skip(2).take_while(|row| row.starts_with('|'));
    rows.map(|row| row.trim_matches('|').split(" | ").map(str::trim).collect())
        .collect()
}

#[test]
fn the_document_lists_every_rule() {
    let format = format();
    let format = section(&format);
    let rows = table(format, "| Rule of a point | Test | Rule |");
    let words: Vec<&str> = rows.iter().map(|row| row[0]).collect();
    let of_runs = OF_RUNS.map(|(rule, _)| rule.words());
    assert_eq!(words, of_runs);
    let of_form = [
        Rule::Name,
        Rule::Book,
        Rule::Fields,
        Rule::Padding,
        Rule::Names,
    ];
    for rule in of_form {
        assert!(format.contains(&format!("\n- {}\n", rule.words())));
    }
    for number in [POINTS_LEN, SLOT_LEN, 62_577] {
        let shown = format!("{},{:03}", number / 1000, number % 1000);
        assert!(format.contains(&shown), "{shown}");
    }
}

/// Each test and rule that is named stands in its file.
#[test]
fn the_definitions_are_there() {
    let format = format();
    let specs = |file: &str| fs::read_to_string(format!("../crates/flat/specs/{file}")).unwrap();
    let (tested, meets, rules) = (
        specs("Tested.antt"),
        specs("Meets.antt"),
        specs("Rules.antt"),
    );
    let names = |cell: &str| {
        let quoted = cell.split('`').skip(1).step_by(2);
        quoted.map(str::to_owned).collect::<Vec<_>>()
    };
    for row in table(section(&format), "| Rule of a point | Test | Rule |") {
        for name in names(row[1]) {
            let shown = format!("pub {name} :");
            assert!(tested.contains(&shown) || rules.contains(&shown), "{name}");
        }
        for name in names(row[2]) {
            let field = format!("pub {name} :");
            let record = format!("pub record {name} ");
            let found =
                [&meets, &rules].map(|file| file.contains(&field) || file.contains(&record));
            assert!(found.contains(&true), "{name}");
        }
    }
}

fn example(format: &str) -> Vec<u8> {
    let (_, rest) = format.split_once("```point\n").unwrap();
    let digits = rest.split_once("```").unwrap().0.split_whitespace();
    digits
        .map(|digits| u8::from_str_radix(digits, 16).unwrap())
        .collect()
}

#[test]
fn the_example_is_what_the_run_saves() {
    let format = format();
    let example = example(&format);
    assert!(format.contains(&format!("begins with these {} bytes", example.len())));
    let book = book_p().encode();
    let question = Question {
        form: Form::Line,
        book: &book,
        line: &LINE_P,
        units: 2,
        budget: 9,
        day: 0,
        schedule: &[0; 3],
    };
    let mut points = vec![0; POINTS_LEN];
    park(&question, b"may", &mut points, NONE, NONE).unwrap();
    assert_eq!(points[..example.len()], example);
    assert!(points[example.len()..].iter().all(|&byte| byte == 0));
    let schedule: Vec<u8> = [0, 1].into_iter().cycle().take(31).collect();
    let found = resume(b"may", &schedule, &mut points, NONE, NONE).unwrap();
    assert_eq!((found.ending, found.rewrites), (ending::FINISHED, 2));
    assert_eq!((found.entries, found.granted), (34, 2));
    assert!(format.contains("2 rewrites, 34 entries and 2 FORKs granted"));
}

/// The rows take all bits but the padding, one after another.
#[test]
fn the_example_field_by_field() {
    let format = format();
    let example = example(&format);
    let fields = &example[BOOK_AT + book_p().encode().len()..];
    assert!(format.contains(&format!("from byte {} on", example.len() - fields.len())));
    let bits: Vec<u64> = fields
        .iter()
        .flat_map(|byte| (0..8).rev().map(move |place| u64::from(byte >> place & 1)))
        .collect();
    let mut end = 0;
    for row in table(&format, "| Bits of the fields | Value | Say |") {
        let (first, last) = row[0].split_once(" to ").unwrap();
        let (first, last): (usize, usize) = (first.parse().unwrap(), last.parse().unwrap());
        assert_eq!(first, end, "{row:?}");
        end = last + 1;
        let value = bits[first..end]
            .iter()
            .fold(0, |value, bit| value << 1 | bit);
        assert_eq!(value, row[1].parse().unwrap(), "{row:?}");
    }
    assert!(bits.len() - end < 8);
    assert!(bits[end..].iter().all(|&bit| bit == 0));
}
