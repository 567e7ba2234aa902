//! Fees: tables and shares in text form, amounts as they are typed, and what is
//! charged to postings.

mod common;

use common::{file, json, kurvneist, kurvneist_with};
use comparison::random::Random;
use kurvneist::{charge, FeeTable, Fees, LARGEST_AMOUNT};
use workbench::fees::amount;
use workbench::fees::{owners, table};
use workbench::mistake::Mistake;
use workbench::names::Names;
use workbench::text::check;

const HOUSE: [&str; 4] = [
    "fees",
    "examples/payees.book",
    "examples/house.fees",
    "examples/house.owners",
];

fn house<'a>(more: &[&'a str]) -> Vec<&'a str> {
    [&HOUSE, more].concat()
}

#[test]
fn the_example_is_charged_to_the_cent() {
    let ran = kurvneist(&house(&["examples/house.lines"]));
    assert_eq!(ran.status, 1);
    let due = std::fs::read_to_string("examples/house.charged").unwrap();
    assert_eq!(ran.output, due);
    assert!(ran
        .errors
        .starts_with("18 lines: 6 posted, 7 not, 5 blank or comment\n"));
    assert!(ran.errors.contains("2 refused, 5 mistyped\n"));
}

/// Each posting's amount is its fee and parts, and the sums are those of all.
#[test]
fn fee_and_parts_add_up() {
    let ran = kurvneist(&house(&["examples/house.lines", "--json", "--quiet"]));
    let lines: Vec<_> = ran.output.lines().map(json::read).collect();
    let (sums, lines) = lines.split_last().unwrap();
    let charged: Vec<_> = lines
        .iter()
        .filter(|line| line.names().contains(&"amount"))
        .collect();
    assert_eq!(charged.len(), 6);
    let sums = sums.get("sums");
    assert_eq!(sums.get("postings").number(), 6);
    for money in charged.iter().copied().chain([sums]) {
        let parts = money.get("parts").list().iter();
        let parts: i128 = parts.map(|part| part.get("part").signed()).sum();
        let fee = money.get("fee").signed();
        assert_eq!(fee + parts, money.get("amount").signed());
    }
    for field in ["amount", "fee"] {
        let sum: i128 = charged.iter().map(|money| money.get(field).signed()).sum();
        assert_eq!(sum, sums.get(field).signed());
    }
    let names = [
        "line", "end", "rewrites", "entries", "granted", "kept", "term",
    ];
    let names = [&names[..], &["amount", "fee", "parts"]].concat();
    assert_eq!(charged[0].names(), names);
    let owner = &charged[3].get("parts").list()[1];
    assert_eq!(owner.get("owner").text(), "Erben Blüm");
    assert_eq!(owner.get("part").signed(), -5821);
    let uncharged = lines.last().unwrap().get("error");
    assert_eq!(uncharged.get("refusal").number(), 22);
    assert_eq!(uncharged.get("term").text(), "8400-Weiß-2.OG");
}

/// On several threads and units, from standard input and to a file.
#[test]
fn the_output_is_the_same_however_it_is_made() {
    let due = std::fs::read("examples/house.charged").unwrap();
    let lines = std::fs::read("examples/house.lines").unwrap();
    for more in [&["--jobs", "3"][..], &["--units", "8"], &["--quiet"]] {
        let ran = kurvneist(&house(&[&["examples/house.lines"], more].concat()));
        assert_eq!(ran.output.as_bytes(), due, "{more:?}");
    }
    let ran = kurvneist_with(&house(&["-"]), &lines);
    assert_eq!(ran.output.as_bytes(), due);
    let output = file("charged", "");
    let ran = kurvneist(&house(&["examples/house.lines", "-o", &output]));
    assert_eq!((ran.status, ran.output.as_str()), (1, ""));
    assert_eq!(std::fs::read(output).unwrap(), due);
    let windows = String::from_utf8(lines).unwrap().replace('\n', "\r\n");
    let ran = kurvneist_with(&house(&["-"]), windows.as_bytes());
    let due = String::from_utf8(due).unwrap();
    assert_eq!(ran.output, due.replace('\n', "\r\n"));
}

#[test]
fn nothing_is_summed_where_nothing_is_posted() {
    let ran = kurvneist_with(&house(&["-"]), b"");
    assert_eq!(ran.status, 0);
    let sum = "# sum of 0 postings: 0.00 = fee 0.00 + Renée Ågren 0.00 + Erben Blüm 0.00 + \
        Solveig Møller 0.00\n";
    assert_eq!(ran.output, sum);
}

/// What the engine charges, for many amounts, through text and back.
#[test]
fn amounts_reach_the_engine_as_they_are() {
    let book = file("one.book", "op rent/0");
    let rates = file("one.fees", "rent 3.33%");
    let shares = file("three.owners", "A 33.33%\nB 33.33%\nC 33.34%");
    let mut random = Random::new(12);
    let mut amounts = vec![0, 1, -1, LARGEST_AMOUNT, -LARGEST_AMOUNT];
    for digits in 1..12 {
        let size = random.below(10_usize.pow(digits)) as i64;
        amounts.extend([size, -size]);
    }
    let lines = amounts
        .iter()
        .map(|cents| format!("{} rent\n", amount::show(*cents)));
    let lines: String = lines.collect();
    let ran = kurvneist_with(&["fees", &book, &rates, &shares, "-"], lines.as_bytes());
    assert_eq!(ran.status, 0, "{}", ran.output);
    let table: FeeTable = [333].into_iter().collect();
    let fees = Fees::new(table.as_bytes(), &[3333, 3333, 3334]);
    for (amount, line) in amounts.iter().zip(ran.output.lines()) {
        let charged = charge(&[0], &fees, *amount).unwrap();
        let shown = |cents: &i64| amount::show(*cents);
        let parts: Vec<String> = charged.parts().iter().map(shown).collect();
        let due = format!(
            "rent: {} = fee {} + A {} + B {} + C {}",
            amount::show(*amount),
            amount::show(charged.fee),
            parts[0],
            parts[1],
            parts[2]
        );
        assert_eq!(line, due);
    }
}

#[test]
fn payees_with_amounts() {
    let rates = file("payees.fees", "König Müller 10%\n* 1%");
    let shares = file("alone.owners", "Erben Blüm 100%");
    let arguments = [
        "fees",
        "examples/payees.book",
        &rates,
        &shares,
        "-",
        "--payee",
    ];
    let lines = "100.00 KOENIG GmbH\n 12,50\tGärtnerei Blüm\n1.00\n1.00 €\n24 Stunden AG\n";
    let ran = kurvneist_with(&arguments, lines.as_bytes());
    let due = "\
König: 100.00 = fee 10.00 + Erben Blüm 90.00
\"gartnerei blum\": 12.50 = fee 0.13 + Erben Blüm 12.37
! column 5: nothing stands behind the amount; expected a line there
! column 6: ISO 8859-1 does not have '€' (U+20AC); expected a payee in characters that it has
! column 1: '24' may be cents; expected an amount with two decimals, as 1234.56, 1,234.56 or 1.234,56
# sum of 2 postings: 112.50 = fee 10.13 + Erben Blüm 102.37
";
    assert_eq!(ran.output, due);
}

/// A posting that isn't finished is not charged.
#[test]
fn unfinished_runs_are_told_and_in_no_sum() {
    let ran = kurvneist_with(
        &house(&["-", "--budget", "1", "--counts"]),
        b"940.00 line(payee(\"Weiss Ren\xc3\xa9e\"), rent)\n5.00 1600-deposits\n",
    );
    assert_eq!(ran.status, 1);
    let told: Vec<&str> = ran.output.lines().collect();
    assert_eq!(told.len(), 3);
    assert!(told[0].starts_with("! spent after 1 rewrite at line(payee(Weiß), rent)  # rewrites 1"));
    assert!(told[1].starts_with("1600-deposits: 5.00 = fee 0.00 + Renée Ågren 2.08"));
    assert!(told[1].ends_with("  # rewrites 0, entries 3, granted 0, kept 0"));
    assert!(told[2].starts_with("# sum of 1 posting: 5.00 = fee 0.00"));
}

#[test]
fn a_bank_export_has_its_amounts_in_a_column() {
    let export = "Amount;Who\n\"1.000,00\";König\n 10.00 ;König\n5;König\n;König\n-1 0,00;König\n";
    let rates = file("export.fees", "* 5%");
    let shares = file("export.owners", "Blüm 1/1");
    let command = [
        "fees",
        "examples/payees.book",
        &rates,
        &shares,
        "-",
        "--payee",
    ];
    let columns = ["--column", "Who", "--separator", ";"];
    let amount = [&command[..], &columns, &["--amount", "Amount"]].concat();
    let ran = kurvneist_with(&amount, export.as_bytes());
    let expected = "expected an amount with two decimals, as 1234.56, 1,234.56 or 1.234,56";
    let due = format!(
        "# Who, Amount
König: 1000.00 = fee 50.00 + Blüm 950.00
König: 10.00 = fee 0.50 + Blüm 9.50
! line 4: 'Amount', character 1: '5' may be cents; {expected}
! line 5: 'Amount', character 1: the amount is missing; {expected}
! line 6: 'Amount', character 3: found ' ' in an amount; {expected}
# sum of 2 postings: 1010.00 = fee 50.50 + Blüm 959.50
"
    );
    assert_eq!(ran.output, due);
    let numbers = [
        "--column",
        "2",
        "--separator",
        ";",
        "--header",
        "--amount",
        "1",
    ];
    let ran = kurvneist_with(&[&command[..], &numbers].concat(), export.as_bytes());
    let without_header = |text: &str| text.split_once('\n').unwrap().1.to_owned();
    let told = without_header(&ran.output).replace("column 1, ", "'Amount', ");
    assert_eq!(told, without_header(&due));
    let told = |more: &[&str]| kurvneist(&[&command[..], more].concat()).errors;
    assert!(told(&columns).contains("a bank export needs --amount"));
    assert!(told(&["--amount", "Amount"]).contains("--amount goes with --column"));
    let zero = [&columns[..], &["--amount", "0"]].concat();
    assert!(told(&zero).contains("there is no column 0; columns count from 1"));
}

fn names() -> Names {
    let book = "op rent König Müller/0 op a _ \",\" \"\"\"\"/1";
    check::read(book).unwrap().names
}

/// The rates of a table, `None` where there is none.
fn rates(source: &str) -> Vec<Option<u16>> {
    let table = table::read(source, &names()).unwrap();
    let rates = table.as_bytes().chunks(2);
    let rates = rates.map(|rate| u16::from_be_bytes([rate[0], rate[1]]));
    rates.map(|rate| (rate <= 10_000).then_some(rate)).collect()
}

#[test]
fn tables_by_names() {
    assert_eq!(rates(""), [None; 7]);
    assert_eq!(rates("# nothing\n\n  # here\r\n"), [None; 7]);
    assert_eq!(rates("* 100%"), [Some(10_000); 7]);
    let some = rates("\u{feff}Müller rent 3.5% # both\r\n\"a\"\t1/4\n* 0%");
    assert_eq!(some, [350, 0, 350, 2500, 0, 0, 0].map(Some));
    let quoted = rates("\",\" 1%\n\"\"\"\" 2%\n\" \" 3%\n");
    assert_eq!(quoted[3..], [None, Some(300), Some(100), Some(200)]);
    assert_eq!(rates("_ 3%"), rates("\" \" 3%"));
}

fn shown(mistakes: &[Mistake], source: &str) -> Vec<String> {
    let shown = mistakes.iter().map(|mistake| mistake.show("T", source));
    shown
        .map(|shown| shown.lines().next().unwrap().to_owned())
        .collect()
}

#[test]
fn mistakes_in_tables() {
    let source = "rent\nrnt 5%\nKönig 5\nKönig Müller König 1.234%\n* 1%\n* 2%\n\",\n";
    let told = shown(&table::read(source, &names()).unwrap_err(), source);
    let share = "a percentage with at most two decimals, as 3.5%, or a fraction, as 35/1000";
    let row = "operators and their rate, as 70010-König-caretaker 3.5%";
    assert_eq!(
        told,
        [
            format!("T:1:1: 'rent' stands alone; expected {row}"),
            "T:2:1: 'rnt' is unknown; expected an operator of the book, such as 'rent'".into(),
            format!("T:3:7: '5' is no rate or share; expected {share}"),
            "T:4:1: 'König' has a rate in line 3; expected each operator once".into(),
            "T:4:14: 'König' has a rate in line 3; expected each operator once".into(),
            format!("T:4:20: '1.234%' is no whole number of ten-thousandths; expected {share}"),
            "T:6:1: '*' has a rate in line 5; expected each operator once".into(),
            format!("T:7:1: '\",' stands alone; expected {row}"),
        ]
    );
    let source = "rent 100.01%";
    let told = shown(&table::read(source, &names()).unwrap_err(), source);
    assert_eq!(
        told,
        ["T:1:6: '100.01%' is over 100%; expected 0% to 100% (refusal 23)"]
    );
}

#[test]
fn owners_by_names() {
    let read = owners::read("Renée  Weiß, geb. Blüm 1/2 # her\n\n1234 50%").unwrap();
    assert_eq!(read.names, ["Renée  Weiß, geb. Blüm", "1234"]);
    assert_eq!(read.shares, [5000, 5000]);
    let sixteen: String = (0..16).map(|owner| format!("O{owner} 1/16\n")).collect();
    assert_eq!(owners::read(&sixteen).unwrap().shares, [625; 16]);
}

#[test]
fn mistakes_in_shares() {
    let told = |source: &str| shown(&owners::read(source).unwrap_err(), source);
    let row = "an owner's name and share, as Renée Weiß 62.5%";
    let none = format!("T:2:1: there is no owner; expected {row} (refusal 23)");
    assert_eq!(told("# nobody\n"), [none.replace("2:1", "1:9")]);
    assert_eq!(
        told("A 50%\nB 49.99%"),
        ["T:2:3: the shares total 99.99%; expected 100%, which is 0.01% more (refusal 23)"]
    );
    assert_eq!(
        told("A 50%\nB 60%\nC 0%"),
        ["T:3:3: the shares total 110.00%; expected 100%, which is 10.00% less (refusal 23)"]
    );
    assert_eq!(
        told("A 50%\nB\nA 2/3"),
        [
            format!("T:2:1: 'B' stands alone; expected {row}"),
            "T:3:1: 'A' has a share in line 1; expected each owner once".into(),
            "T:3:3: '2/3' is no whole number of ten-thousandths; expected a percentage with at \
             most two decimals, as 3.5%, or a fraction, as 35/1000"
                .into(),
        ]
    );
    let seventeen: String = (0..17).map(|owner| format!("O{owner} 1/16\n")).collect();
    assert_eq!(
        told(&seventeen),
        ["T:17:1: this is owner 17; expected at most 16 (refusal 23)"]
    );
}

#[test]
fn postings_without_a_rate_are_told_and_in_no_sum() {
    let rates = file("rentless.fees", "1600-deposits 5%");
    let arguments = ["fees", HOUSE[1], &rates, HOUSE[3], "-"];
    let ran = kurvneist_with(&arguments, b"1.00 1600-deposits\n2.00 both(rent, rent)\n");
    assert_eq!(ran.status, 1);
    let told: Vec<&str> = ran.output.lines().collect();
    assert!(told[0].starts_with("1600-deposits: 1.00 = fee 0.05 + "));
    assert_eq!(
        told[1],
        "! refused 23: the table has no rate for 'both', at both(rent, rent)"
    );
    assert!(told[2].starts_with("# sum of 1 posting: 1.00 = fee 0.05 + "));
}

#[test]
fn files_that_cannot_be_used() {
    let told = |table: &str, owners: &str| {
        let arguments = [
            "fees",
            "examples/payees.book",
            table,
            owners,
            "examples/house.lines",
        ];
        let ran = kurvneist(&arguments);
        assert_eq!((ran.status, ran.output.as_str()), (3, ""));
        ran.errors
    };
    let (table, owners) = (HOUSE[2], HOUSE[3]);
    assert!(told("examples/none.fees", owners).starts_with("examples/none.fees: "));
    assert!(told(table, "examples/none.owners").starts_with("examples/none.owners: "));
    let latin = file("latin.owners", b"Bl\xfcm 100%");
    let byte =
        ":1:3: the byte FC is not UTF-8; expected a text in UTF-8, or its encoding by an option\n";
    assert!(told(table, &latin).contains(byte));
    let unknown = file("unknown.fees", "Koenig 5%");
    assert!(told(&unknown, owners).contains(":1:1: 'Koenig' is unknown"));
    let short = file("short.owners", "Blüm 99%");
    assert!(told(table, &short).contains("the shares total 99.00%"));
    let book = file("plain.book", "op rent/0");
    let rates = file("plain.fees", "rent 5%");
    let arguments = [
        "fees",
        &book,
        &rates,
        &latin,
        "-",
        "--book-encoding",
        "latin-1",
    ];
    let ran = kurvneist_with(&arguments, "1.00 rent # Blüm".as_bytes());
    assert!(ran
        .output
        .starts_with("rent: 1.00 = fee 0.05 + Blüm 0.95\n"));
}

#[test]
fn wrong_command_lines() {
    let told = |arguments: &[&str]| {
        let ran = kurvneist(&[&["fees"], arguments].concat());
        assert_eq!((ran.status, ran.output.as_str()), (2, ""));
        ran.errors
    };
    assert!(told(&["a", "b", "c"]).contains("LINES is missing"));
    assert!(told(&["a", "b", "-", "-"]).contains("OWNERS and LINES are both standard input"));
    assert!(told(&["a", "b", "c", "d", "--profile", "x"]).contains("'--profile' is no option"));
    let owners = "examples/house.owners";
    let told = told(&["a", "b", owners, "d", "-o", owners]);
    assert!(told.contains("which it would overwrite"));
}

/// The help's example is charged so.
#[test]
fn the_helps_example() {
    let help = kurvneist(&["help", "fees"]).output;
    let posting = help
        .lines()
        .find(|line| line.starts_with("  8400-Weiß-2.OG: 940.00 = "));
    let rows: Vec<(&str, &str)> = help
        .lines()
        .skip_while(|line| !line.starts_with("  8400-Weiß-2.OG 8401"))
        .take(3)
        .map(|line| {
            line.split_at(
                line.find("    Renée")
                    .or(line.find("    Erben"))
                    .unwrap_or(line.len()),
            )
        })
        .collect();
    assert_eq!(rows.len(), 3);
    let column = |side: fn(&(&str, &str)) -> String| rows.iter().map(side).collect::<String>();
    let rates = file("help.fees", column(|row| format!("{}\n", row.0)));
    let shares = file("help.owners", column(|row| format!("{}\n", row.1)));
    let ran = kurvneist_with(
        &["fees", "examples/payees.book", &rates, &shares, "-"],
        b"940.00 8400-Wei\xc3\x9f-2.OG",
    );
    assert_eq!(ran.output.lines().next(), posting.map(str::trim_start));
}

/// Whatever is typed is read, or told with a place that can be shown.
#[test]
fn any_text_is_read_or_told() {
    let pieces = [
        "0", "1", "25", "234", ".", ",", "-", "+", "−", "/", "%", "*", "#", " ", "\t", "\"", "'",
        "a", "€", "ö", "\n", "\r", "rent ", "50%", "100%", "1/2\n", ".00",
    ];
    let mut random = Random::new(23);
    let (mut amounts, mut tables, mut shares) = (0, 0, 0);
    for _ in 0..100_000 {
        let length = random.below(8);
        let text: String = (0..length).map(|_| *random.pick(&pieces)).collect();
        match amount::read(&text) {
            Ok(cents) => {
                let digits = |text: &str| text.replace(|one: char| !one.is_ascii_digit(), "");
                let (typed, shown) = (digits(&text), digits(&amount::show(cents)));
                assert_eq!(typed.trim_start_matches('0'), shown.trim_start_matches('0'));
                amounts += 1;
            }
            Err(mistake) => assert!(!mistake.show("T", &text).is_empty()),
        }
        match table::read(&text, &names()) {
            Ok(_) => tables += 1,
            Err(mistakes) => assert!(!shown(&mistakes, &text).is_empty()),
        }
        match owners::read(&text) {
            Ok(owners) => {
                assert_eq!(owners.shares.iter().sum::<u16>(), 10_000);
                shares += 1;
            }
            Err(mistakes) => assert!(!shown(&mistakes, &text).is_empty()),
        }
    }
    assert!(
        amounts > 100 && tables > 100 && shares > 10,
        "{amounts} {tables} {shares}"
    );
}
