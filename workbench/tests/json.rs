//! What is written as JSON is JSON, one object a line, and says what the text
//! says.

mod common;

use common::json::{read, read_line, Value};
use common::{kurvneist, kurvneist_with};
use comparison::random::Random;
use workbench::json::Json;

fn written(value: &Json) -> Value {
    match value {
        Json::Null => Value::Null,
        Json::Bool(value) => Value::Bool(*value),
        Json::Number(value) => Value::Number(*value),
        Json::Text(text) => Value::Text(text.clone()),
        Json::List(items) => Value::List(items.iter().map(written).collect()),
        Json::Object(fields) => {
            let field = |(name, value): &(&str, Json)| (name.to_string(), written(value));
            Value::Object(fields.iter().map(field).collect())
        }
    }
}

fn random_text(random: &mut Random) -> String {
    let some = "\"\\/\u{0}\n\r\t\u{1b}\u{7f}\u{85}\u{a0}éß€\u{2028}\u{2029}\u{feff}😀}],:";
    let some: Vec<char> = some.chars().collect();
    (0..random.below(12)).map(|_| *random.pick(&some)).collect()
}

fn random_value(random: &mut Random, depth: usize) -> Json {
    match random.below(if depth == 0 { 4 } else { 6 }) {
        0 => Json::from(None::<u64>),
        1 => random.one_in(2).into(),
        2 => (*random.pick(&[0, 7, u64::MAX])).into(),
        3 => random_text(random).into(),
        4 => (0..random.below(4))
            .map(|_| random_value(random, depth - 1))
            .collect(),
        _ => {
            let names = ["a", "\"", "\\n"].into_iter().take(random.below(4));
            let field = |name| (name, random_value(random, depth - 1));
            Json::Object(names.map(field).collect())
        }
    }
}

#[test]
fn values_are_read_back() {
    let mut random = Random::new(15);
    for _ in 0..3000 {
        let value = random_value(&mut random, 3);
        let text = value.to_string();
        assert_eq!(read(&text), written(&value), "{text}");
        // One line for every reader of lines.
        let breaks = |one: char| one.is_control() || "\u{2028}\u{2029}".contains(one);
        assert!(!text.contains(breaks), "{text:?}");
    }
    let text = Json::from("a\"\\\u{1}\u{85}é\n").to_string();
    assert_eq!(text, "\"a\\\"\\\\\\u0001\\u0085é\\n\"");
}

#[test]
fn a_posting_says_what_the_page_says() {
    let command = [
        "post",
        "examples/payees.book",
        "KÖNIG Hausmeister-Service GmbH",
        "--payee",
    ];
    let page = kurvneist(&command);
    let ran = kurvneist(&[&command[..], &["--json"]].concat());
    assert_eq!((ran.status, ran.errors.as_str()), (0, ""));
    let told = read_line(&ran.output);
    let line = |name: &&str| match told.get(name) {
        Value::Number(number) => format!("{name} {number}\n"),
        other => format!("{name} {}\n", other.text()),
    };
    let names = told.names();
    assert_eq!(
        names,
        ["end", "rewrites", "entries", "granted", "kept", "term"]
    );
    assert_eq!(names.iter().map(line).collect::<String>(), page.output);
}

#[test]
fn lines_without_a_run_are_objects_too() {
    for command in ["post", "explain"] {
        let said = |arguments: &[&str]| {
            let ran = kurvneist(&[&[command, "--json"], arguments].concat());
            assert_eq!((ran.status, ran.errors.as_str()), (1, ""), "{arguments:?}");
            read_line(&ran.output).get("error").clone()
        };
        let told = said(&["examples/ticks.book", "both(end, tik(end))"]);
        assert_eq!(told.names(), ["kind", "column", "message"]);
        assert_eq!(told.get("kind").text(), "mistyped");
        assert_eq!(told.get("column").number(), 11);
        let message = "'tik' is unknown; expected an operator that is declared, such as 'tick'";
        assert_eq!(told.get("message").text(), message);

        let told = said(&["examples/ticks.book", "König", "--payee"]);
        assert_eq!(told.names(), ["kind", "refusal", "message"]);
        assert_eq!(told.get("kind").text(), "refused");
        assert_eq!(told.get("refusal").number(), 19);
        assert!(told
            .get("message")
            .text()
            .ends_with("'op letters' declares them"));
    }
    // A run that didn't finish is told with its ending.
    let spent = [
        "post",
        "examples/ticks.book",
        "both(tick(end), end)",
        "--json",
        "--budget=1",
    ];
    let ran = kurvneist(&spent);
    assert_eq!(ran.status, 1);
    let told = read_line(&ran.output);
    assert_eq!(told.get("end").text(), "spent");
    assert_eq!(told.get("term").text(), "tick(both(end, end))");
}

#[test]
fn a_batch_is_an_object_a_line() {
    let long = format!("{}end{}", "tick(".repeat(1024), ")".repeat(1024));
    let input = format!(
        "both(tick(end), end)\n\n# \"note\"\t\u{1}\u{2028}\nboth(end)\n{long}\nend \u{fffd}\n"
    );
    let mut input = input.into_bytes();
    input.extend(b"\xe9\n");
    let batch = ["batch", "examples/ticks.book", "-", "--json"];
    let ran = kurvneist_with(&batch, &input);
    assert_eq!(ran.status, 1);
    assert!(ran
        .errors
        .starts_with("7 lines: 1 posted, 4 not, 2 blank or comment\n"));
    let objects: Vec<Value> = ran.output.lines().map(read).collect();
    assert_eq!(ran.output.matches('\n').count(), 7);
    for (number, object) in (1..).zip(&objects) {
        assert_eq!(
            (object.names()[0], object.get("line").number()),
            ("line", number)
        );
    }
    let names = [
        "line", "end", "rewrites", "entries", "granted", "kept", "term",
    ];
    assert_eq!(objects[0].names(), names);
    assert_eq!(objects[0].get("term").text(), "tick(end)");
    assert_eq!(objects[1].get("comment").text(), "");
    assert_eq!(
        objects[2].get("comment").text(),
        "# \"note\"\t\u{1}\u{2028}"
    );
    let error = |at: usize| objects[at].get("error");
    assert_eq!(error(3).get("kind").text(), "mistyped");
    assert_eq!(error(3).get("column").number(), 1);
    assert_eq!(error(4).get("refusal").number(), 12);
    assert_eq!(error(5).get("column").number(), 5);
    assert_eq!(error(6).get("column").number(), 1);
    assert!(error(6)
        .get("message")
        .text()
        .starts_with("the byte E9 is not UTF-8"));
}

/// Of a bank export, an object a record; an error says its field.
#[test]
fn a_bank_export_is_an_object_a_record() {
    let export = "Payee,Purpose\nKönig,\"Rg.\n1\"\n\"Café €\",x\nlone\n\"open,x\n";
    let batch = ["batch", "examples/payees.book", "-", "--json"];
    let columns = [
        "--column",
        "Payee",
        "--template",
        "line(payee(\"{}\"), purpose(\"{Purpose}\"))",
    ];
    let ran = kurvneist_with(&[&batch[..], &columns].concat(), export.as_bytes());
    assert_eq!(ran.status, 1, "{}", ran.errors);
    let objects: Vec<Value> = ran.output.lines().map(read).collect();
    let places: Vec<[u64; 2]> = objects
        .iter()
        .map(|object| ["record", "line"].map(|name| object.get(name).number()))
        .collect();
    assert_eq!(places, [[1, 1], [2, 2], [3, 4], [4, 5], [5, 6]]);
    assert_eq!(objects[0].get("comment").text(), "# Payee, Purpose");
    assert_eq!(objects[1].get("term").text(), "70010-König-caretaker");
    let error = objects[2].get("error");
    assert_eq!(error.names(), ["kind", "field", "column", "message"]);
    assert_eq!(error.get("field").text(), "Payee");
    assert_eq!(error.get("column").number(), 6);
    for object in &objects[3..] {
        let error = object.get("error");
        assert_eq!(error.names(), ["kind", "column", "message"]);
        assert_eq!(error.get("column"), &Value::Null);
    }
}

/// What JSON tells is told in the help.
#[test]
fn the_help_names_every_field() {
    for (command, fields) in [
        (
            "post",
            &[
                "end", "rewrites", "entries", "granted", "kept", "term", "error", "kind", "column",
                "refusal", "message",
            ][..],
        ),
        (
            "batch",
            &[
                "line",
                "record",
                "field",
                "comment",
                "rules",
                "rule_line",
                "sides",
            ],
        ),
        (
            "check",
            &[
                "book",
                "errors",
                "warnings",
                "diagnostics",
                "level",
                "certain",
            ],
        ),
        (
            "explain",
            &[
                "steps",
                "position",
                "substitution",
                "part",
                "becomes",
                "before",
                "after",
                "stopped",
            ],
        ),
    ] {
        let help = kurvneist(&["help", command]).output;
        let (_, json) = help.split_once("With --json").unwrap();
        for field in fields {
            assert!(json.contains(field), "{command} {field}");
        }
    }
}
