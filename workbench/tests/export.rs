//! Bank exports: columns, quotes, templates, and records that can't be read.

mod common;

use common::{file, kurvneist, kurvneist_with, Ran};
use workbench::csv::{separator, Line, Record, Records};
use workbench::template::Template;

const PAYEES: &str = "examples/payees.book";

/// The records of a text's lines, as (line, fields).
fn records(text: &str, separator: char) -> Vec<(usize, Result<Vec<String>, String>)> {
    let mut lines = text.lines().map(|line| Line {
        text: Ok(line.to_owned()),
        ending: "\n",
    });
    let mut records = Records::new(separator);
    let mut next = || records.next(|| Ok::<_, ()>(lines.next())).unwrap();
    let mut all = Vec::new();
    while let Some(Record { line, fields, .. }) = next() {
        all.push((line, fields));
    }
    all
}

fn fields(text: &str, separator: char) -> Vec<String> {
    let mut records = records(text, separator);
    assert_eq!(records.len(), 1, "{text}");
    records.remove(0).1.unwrap()
}

#[test]
fn fields_stand_between_separators() {
    for (text, separator, due) in [
        ("a,b,c", ',', &["a", "b", "c"][..]),
        ("a;b,c", ';', &["a", "b,c"]),
        ("a\tb c", '\t', &["a", "b c"]),
        (",,", ',', &["", "", ""]),
        ("\"a,b\",c", ',', &["a,b", "c"]),
        ("\"\",x", ',', &["", "x"]),
        ("\"say \"\"no\"\"\",x", ',', &["say \"no\"", "x"]),
        ("\"\"\"\"", ',', &["\""]),
        ("5\" pipe,x", ',', &["5\" pipe", "x"]),
        ("\"a\nb\",c", ',', &["a\nb", "c"]),
        ("\"a\n\n,\"\"b\",c", ',', &["a\n\n,\"b", "c"]),
    ] {
        assert_eq!(fields(text, separator), due, "{text}");
    }
}

/// Only its first line is lost, whether the quote is closed by another record
/// or by none.
#[test]
fn a_bad_record_loses_one_line() {
    let open = "a,1\nb,\"2\nc,3\nd,4";
    let read = records(open, ',');
    let lines: Vec<usize> = read.iter().map(|record| record.0).collect();
    assert_eq!(lines, [1, 2, 3, 4]);
    let told = "character 3: the field's quote isn't closed; expected '\"' behind the field";
    assert_eq!(read[1].1, Err(told.into()));
    assert_eq!(read[3].1, Ok(vec!["d".into(), "4".into()]));

    let read = records("\"a,1\n\"b\",2\nc,3", ',');
    assert_eq!(read.len(), 3);
    assert!(read[0]
        .1
        .as_ref()
        .unwrap_err()
        .starts_with("character 1: text stands behind"));
    assert_eq!(read[1].1, Ok(vec!["b".into(), "2".into()]));

    // A quote that stays open doesn't take the whole file.
    let long = format!("\"a\n{}", "b,1\n".repeat(500));
    let read = records(&long, ',');
    assert_eq!(read.len(), 501);
    assert!(read[0].1.is_err() && read[1..].iter().all(|record| record.1.is_ok()));
}

/// Records are counted by their first lines, whatever stood before.
#[test]
fn records_of_several_lines_keep_the_count() {
    let read = records("a\n\"b\nb\nb\"\nc\n\"d\ne", ',');
    let lines: Vec<(usize, bool)> = read.iter().map(|one| (one.0, one.1.is_ok())).collect();
    assert_eq!(
        lines,
        [(1, true), (2, true), (5, true), (6, false), (7, true)]
    );
}

fn batch(input: &str, more: &[&str]) -> Ran {
    kurvneist_with(&[&["batch", PAYEES, "-"], more].concat(), input.as_bytes())
}

#[test]
fn a_column_by_name_or_number() {
    let input = "Date,Payee\n1.5.,König GmbH\n2.5.,\"Weiss, Renée\"\n";
    let due = "# Payee\nKönig\nWeiß\n";
    let ran = batch(input, &["--payee", "--column", "Payee"]);
    assert_eq!((ran.status, ran.output.as_str()), (0, due));
    assert!(
        ran.errors
            .starts_with("3 records: 2 posted, 0 not, 1 header or blank\n"),
        "{}",
        ran.errors
    );
    let ran = batch(input, &["--payee", "--column", "2", "--header"]);
    assert_eq!(ran.output, "# 2\nKönig\nWeiß\n");
    let ran = batch(input, &["--payee", "--column", "2"]);
    assert_eq!(ran.output, "\"payee\"\nKönig\nWeiß\n");
    let ran = batch("x\n", &["--payee", "--column", "1"]);
    assert!(
        ran.errors.starts_with("1 record: 1 posted"),
        "{}",
        ran.errors
    );
}

#[test]
fn separators_by_name_or_sign() {
    for (sign, names) in [
        (';', [";", "semicolon"]),
        ('\t', ["tab", "\\t"]),
        (',', [",", "comma"]),
    ] {
        for name in names {
            assert_eq!(separator(name), Ok(sign));
            let input = format!("Payee{sign}Date\nKönig{sign}1.5.\n");
            let ran = batch(
                &input,
                &["--payee", "--column", "Payee", "--separator", name],
            );
            assert_eq!((ran.status, ran.output.as_str()), (0, "# Payee\nKönig\n"));
        }
    }
}

/// A column that has lines by names, with comments of no meaning.
#[test]
fn a_column_of_lines() {
    let input = "x;both(tick(end), end)\n\n#;end\n# no comment;tik(end)\n";
    let arguments = [
        "batch",
        "examples/ticks.book",
        "-",
        "--column",
        "2",
        "--separator",
        ";",
    ];
    let ran = kurvneist_with(&arguments, input.as_bytes());
    let due = "tick(end)\n\nend\n! line 4: column 2, character 1: 'tik' is unknown; \
               expected an operator that is declared, such as 'tick'\n";
    assert_eq!((ran.status, ran.output.as_str()), (1, due));
}

#[test]
fn bad_records_are_told_with_their_lines() {
    let input = "Payee;Purpose\n\"Kö\nnig\";Rg.\nWeiß\n\"Weiß;Miete\nCafé \u{20ac};x\nWeiß;1 \u{20ac}\nNúñez\"x;x\n";
    let arguments = [
        "--separator",
        ";",
        "--template",
        "line(payee(\"{1}\"), purpose(\"{Purpose}\"))",
    ];
    let ran = batch(input, &arguments);
    let told: Vec<&str> = ran.output.lines().collect();
    assert_eq!(ran.status, 1);
    assert_eq!(told[0], "# 1, Purpose");
    assert_eq!(told[1], "line(payee(\"ko nig\"), invoice)");
    assert_eq!(
        told[2],
        "! line 4: the record has 1 field; expected 'Purpose' as field 2"
    );
    assert!(
        told[3].starts_with("! line 5: character 1: "),
        "{}",
        told[3]
    );
    assert!(
        told[4].starts_with("! line 6: column 1, character 6: the string needs the operator '€'")
    );
    assert!(
        told[5].starts_with("! line 7: 'Purpose', character 3: the string needs"),
        "{}",
        told[5]
    );
    assert_eq!(told.len(), 7);
    // The engine's refusals too.
    let long = format!("{}\nKönig\n", "y".repeat(1024));
    let ran = batch(&long, &["--payee", "--column", "1"]);
    assert_eq!(
        ran.output,
        "! line 1: refused 18: the text's term would have over 1,024 symbols\nKönig\n"
    );
    let ran = kurvneist_with(
        &[
            "batch",
            PAYEES,
            "-",
            "--payee",
            "--column",
            "1",
            "--encoding",
            "utf-8",
        ],
        b"K\xf6nig\nK\xc3\xb6nig\n",
    );
    assert_eq!(
        ran.output,
        "! line 1: character 2: the byte F6 is not UTF-8; expected UTF-8, or --encoding with the file's\nKönig\n"
    );
}

#[test]
fn headers_without_the_column_are_told() {
    for (input, arguments, told) in [
        (
            "Date,Payee\n",
            &["--column", "Paye"][..],
            "-: the header has no column 'Paye'; it has 'Date', 'Payee'; did you mean 'Payee'?",
        ),
        (
            "Date;Payee\n",
            &["--column", "Payee"],
            "-: the header has no column 'Payee'; it has 'Date;Payee'; try --separator ';'",
        ),
        (
            "Payee,Payee\n",
            &["--column", "Payee"],
            "-: the header has 'Payee' twice; expected the column's number",
        ),
        ("", &["--column", "Payee"], "-: the file has no header"),
    ] {
        let ran = batch(input, &[&["--payee"], arguments].concat());
        assert_eq!(
            (ran.status, ran.output.as_str(), ran.errors.trim_end()),
            (3, "", told)
        );
    }
}

/// A file from Windows: a mark, CR LF, Windows-1252.
#[test]
fn marks_and_line_ends_of_windows() {
    let input = "\u{feff}Payee,X\r\nKönig,\"1\r\n2\"\r\nStadtwerke,3";
    let ran = batch(input, &["--payee", "--column", "Payee"]);
    assert_eq!(
        (ran.status, ran.output.as_str()),
        (0, "# Payee\r\nKönig\r\nStadtwerke\r\n")
    );
    let input = b"Payee\r\nK\xf6nig\r\n\x80\r\n";
    let arguments = [
        "batch",
        PAYEES,
        "-",
        "--payee",
        "--column",
        "Payee",
        "--encoding",
        "windows-1252",
    ];
    let ran = kurvneist_with(&arguments, input);
    assert_eq!(
        ran.output,
        "# Payee\r\nKönig\r\n! line 3: 'Payee', character 1: ISO 8859-1 does not have '€' (U+20AC); \
         expected a payee in characters that it has\r\n"
    );
}

#[test]
fn templates_take_texts_as_strings() {
    let template = Template::read("f(\"{}\", \"x{2}{{\", \"{}\")").unwrap();
    assert_eq!(template.columns, ["", "2"]);
    let texts = ["a \"b\"", "c"].map(String::from);
    let made = template.line(&texts);
    assert_eq!(made.line, "f(\"a \"\"b\"\"\", \"xc{\", \"a \"\"b\"\"\")");
    let place = |part: &str| made.column(made.line.find(part).unwrap());
    assert_eq!(place("b\"\""), Some((0, 4)));
    assert_eq!(place("c{"), Some((1, 1)));
    assert_eq!((place("f("), place("x")), (None, None));
    for (written, column, told) in [
        ("f(end)", 1, "the template has no place for a text"),
        ("f({})", 3, "the place stands outside quotes"),
        ("f(\"{x\")", 4, "the brace isn't closed"),
    ] {
        let mistake = Template::read(written).unwrap_err();
        assert_eq!(
            (mistake.place(written).1, mistake.wrong.as_str()),
            (column, told)
        );
    }
}

/// Whatever a column has, it is that string of the line.
#[test]
fn a_template_adds_nothing_to_its_text() {
    let book = file(
        "quotes.book",
        "op end/0 op a \"\"\"\" \")\" \"{\" _/1 op line/1",
    );
    let input = "\"a\"\") a{\"\n\"\"\"\"\n";
    let arguments = [
        "batch",
        &book,
        "-",
        "--column",
        "1",
        "--template",
        "line(\"{}\")",
    ];
    let ran = kurvneist_with(&arguments, input.as_bytes());
    assert_eq!(
        (ran.status, ran.output.as_str()),
        (0, "line(\"a\"\") a{\")\nline(\"\"\"\")\n"),
        "{}",
        ran.errors
    );
    // Without a column it is the whole line.
    let ran = kurvneist_with(
        &["batch", &book, "-", "--template", "line(\"{}\")"],
        "a{\n# note\naé\n".as_bytes(),
    );
    assert_eq!(
        ran.output,
        "line(\"a{\")\n# note\n! column 2: the string needs the operator 'é', which is not declared; expected a \
         one-argument operator for each character, '_' for a space, and 'end'\n"
    );
}

#[test]
fn wrong_command_lines_about_exports_are_told() {
    let line = "line(payee(\"{}\"), purpose(\"\"))";
    for (arguments, told) in [
        (
            &["--template", line, "--payee"][..],
            "--payee takes the text itself",
        ),
        (&["--separator", ";"], "--separator goes with --column"),
        (&["--header"], "--header goes with --column"),
        (
            &["--column", "0"],
            "there is no column 0; columns count from 1",
        ),
        (
            &["--column", "1", "--separator", "x"],
            "--separator x: expected ',', ';', '|' or tab",
        ),
        (
            &["--column", "1", "--template", "f(\"{2}\")"],
            "--column has no {} in the template",
        ),
        (
            &["--template", "f(\"{2}{}\")"],
            "the template's {} needs --column",
        ),
        (
            &["--template", "f({})"],
            "TEMPLATE:1:3: the place stands outside quotes",
        ),
        (
            &["--column", "1", "--template", "lin(\"{}\")"],
            "LINE:1:1: 'lin' is unknown",
        ),
        (
            &["--encoding", "latin-1", "--latin1"],
            "--latin1 and --encoding say the same",
        ),
        (
            &["--encoding", "latin"],
            "expected utf-8, latin-1 or windows-1252; did you mean 'latin-1'?",
        ),
    ] {
        let ran = batch("x\n", arguments);
        assert_eq!((ran.status, ran.output.as_str()), (2, ""), "{arguments:?}");
        assert!(ran.errors.contains(told), "{arguments:?}\n{}", ran.errors);
    }
}

#[test]
fn the_example_gives_its_accounts_on_any_number_of_units() {
    let template = "line(payee(\"{Payee}\"), purpose(\"{Purpose}\"))";
    let export = "examples/statement.csv";
    let arguments = [
        "batch",
        PAYEES,
        export,
        "--separator",
        ";",
        "--template",
        template,
    ];
    let one = kurvneist(&arguments);
    assert_eq!(one.status, 1);
    assert!(
        one.output.contains("\n70030-Müller-plumbing\n"),
        "{}",
        one.output
    );
    for units in ["2", "8"] {
        let more = kurvneist(&[&arguments[..], &["--units", units]].concat());
        assert_eq!(more.output, one.output);
    }
}

/// Records of several lines, bad ones and long lines, on threads as on one.
#[test]
fn jobs_change_no_record() {
    let mut input = String::from("Payee;Purpose\r\n");
    for round in 0..200 {
        input.push_str("König;Rg.\r\n\"Müller & Söhne\";\"Rg.\r\n12\"\r\n\"open;x\r\n");
        if round % 50 == 0 {
            input.push_str(&format!("{}\r\n", "y".repeat(1 << 20 | 1)));
        }
    }
    let export = file("jobs.csv", input);
    let template = "line(payee(\"{Payee}\"), purpose(\"{Purpose}\"))";
    let run = |jobs: &str| {
        let words = ["batch", PAYEES, &export, "--separator", ";", "--jobs", jobs];
        kurvneist(&[&words[..], &["--template", template]].concat())
    };
    let one = run("1");
    let told: Vec<&str> = one.output.split("\r\n").collect();
    assert_eq!((one.status, told.len()), (1, 1 + 3 * 200 + 4 + 1));
    assert_eq!(
        told[1..3],
        ["70010-König-caretaker", "70030-Müller-plumbing"]
    );
    assert!(
        told[3].starts_with("! line 5: character 1: "),
        "{}",
        told[3]
    );
    assert_eq!(
        told[4],
        "! line 6: the line has over 1048576 bytes; expected at most so many"
    );
    assert_eq!(told[5..7], told[1..3]);
    for jobs in ["2", "7"] {
        assert_eq!(run(jobs).output, one.output);
    }
}
