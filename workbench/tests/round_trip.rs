//! Books to texts and texts to books, on random ones.

mod common;

use std::collections::HashSet;

use common::{file, kurvneist, largest_draft};
use comparison::books;
use comparison::dates;
use comparison::draft::{Draft, Symbol};
use comparison::grow;
use comparison::model::{read_book, Item};
use comparison::random::Random;
use workbench::day;
use workbench::line;
use workbench::mistake::Mistake;
use workbench::names::Names;
use workbench::text::{check, printer};

const BOOKS: u64 = 800;

fn drafts() -> impl Iterator<Item = Draft> {
    (0..BOOKS)
        .map(|number| {
            let mut random = Random::for_case(7, number);
            let mut draft = books::draft(&mut random);
            dates::date(&mut random, &mut draft);
            draft
        })
        .chain((0..3).map(|number| largest_draft(&mut Random::for_case(8, number))))
}

#[test]
fn a_books_text_gives_that_very_book() {
    for draft in drafts() {
        let bytes = draft.encode();
        let written = kurvneist::written_book(&bytes).unwrap();
        let book = read_book(&bytes).unwrap();
        let text = printer::book(&book, &Names::generated(&book));
        let again = check::read(&text).unwrap_or_else(|mistakes| panic!("{mistakes:?}\n{text}"));
        assert_eq!(again.book, written, "{text}");
    }
}

/// The random books reach every limit and every form of a strategy.
#[test]
fn the_random_books_are_wide_enough() {
    let mut seen = HashSet::new();
    for draft in drafts() {
        let book = read_book(&draft.encode()).unwrap();
        seen.extend((book.operators.len() == 255).then_some("255 operators"));
        seen.extend((book.rules.len() == 255).then_some("255 rules"));
        seen.extend(book.rules.is_empty().then_some("no rules"));
        let days = book.days.as_ref();
        seen.extend(days.map(|_| "dated"));
        seen.extend(days.is_some_and(Vec::is_empty).then_some("dated, no rules"));
        for rule in &draft.rules {
            seen.extend((rule.left.len() == 64).then_some("left of 64"));
            seen.extend((rule.right.len() == 64).then_some("right of 64"));
            let variables = rule.left.iter().filter_map(variable).count();
            seen.extend((variables == 16).then_some("16 variables"));
        }
        for (operator, given) in book.operators.iter().zip(&draft.operators) {
            let settled = &operator.strategy;
            let group = |item: &Item| matches!(item, Item::Group(_));
            let inner = settled
                .iter()
                .rev()
                .skip(1)
                .any(|item| *item == Item::Whole);
            seen.extend((operator.arity == 7).then_some("arity 7"));
            seen.extend(given.strategy.is_none().then_some("no strategy"));
            seen.extend(settled.is_empty().then_some("empty strategy"));
            seen.extend(settled.iter().any(group).then_some("group"));
            seen.extend(
                (settled.iter().filter(|item| group(item)).count() > 1).then_some("groups"),
            );
            seen.extend(inner.then_some("inner 0"));
            let length = given.strategy.as_ref().map(Vec::len);
            seen.extend((length == Some(31)).then_some("31 items"));
        }
    }
    assert_eq!(seen.len(), 15, "{seen:?}");
}

#[test]
fn a_texts_book_gives_a_text_of_that_book() {
    for (number, draft) in (0..).zip(drafts()) {
        let mut writer = Writer::new(Random::for_case(9, number), &draft);
        let text = writer.text(&draft);
        let written = kurvneist::written_book(&draft.encode()).unwrap();
        let named = check::read(&text).unwrap_or_else(|mistakes| panic!("{mistakes:?}\n{text}"));
        assert_eq!(named.book, written, "{text}");
        let names: Vec<&str> = named.names.all().collect();
        assert_eq!(names, writer.names);

        let printed = printer::book(&read_book(&named.book).unwrap(), &named.names);
        let again = check::read(&printed).unwrap_or_else(|all| panic!("{all:?}\n{printed}"));
        assert_eq!(again.book, named.book, "{printed}");
        assert!(again.names.all().eq(named.names.all()));
        let twice = printer::book(&read_book(&again.book).unwrap(), &again.names);
        assert_eq!(twice, printed);
    }
}

/// Lines by name, whatever the names are.
#[test]
fn a_lines_text_gives_that_very_line() {
    let mut lines = 0;
    for (number, draft) in (0..).zip(drafts()) {
        let mut writer = Writer::new(Random::for_case(9, number), &draft);
        let named = check::read(&writer.text(&draft)).unwrap();
        let line = grow::line(&mut Random::for_case(10, number), &draft);
        // Without a constant in the book there is no line.
        if line.is_empty() {
            continue;
        }
        lines += 1;
        let text = printer::term(&line, &named.names);
        assert_eq!(
            line::read(&text, &named.names).as_ref(),
            Ok(&line),
            "{text}"
        );
        let mark = Some(number as usize % line.len());
        let (marked, range) = printer::marked_term(&line, &named.names, mark);
        let (start, end) = (range.clone().unwrap().start, range.unwrap().end);
        let unmarked = [
            &marked[..start],
            &marked[start + 1..end - 1],
            &marked[end..],
        ]
        .concat();
        assert_eq!(line::read(&unmarked, &named.names), Ok(line), "{marked}");
    }
    assert!(lines > 700);
}

/// A book with a letter changed, lost or too many is still a book, that can be
/// printed, or has a mistake; seldom is that one told as several.
#[test]
fn spoiled_texts_are_read_or_told() {
    let good: Vec<char> = include_str!("../examples/payees.book").chars().collect();
    let pieces: Vec<char> = "(){},=/:\"#\n\t \u{301}é0189ao\u{0}€".chars().collect();
    let (mut books, mut mistaken, mut several) = (0, 0, 0);
    for number in 0..300 {
        let mut random = Random::for_case(11, number);
        let mut spoiled = good.clone();
        let place = random.below(spoiled.len());
        match random.below(3) {
            0 => drop(spoiled.remove(place)),
            1 => spoiled[place] = *random.pick(&pieces),
            _ => spoiled.insert(place, *random.pick(&pieces)),
        }
        let source: String = spoiled.into_iter().collect();
        match check::read(&source) {
            Ok(named) => {
                books += 1;
                let text = printer::book(&read_book(&named.book).unwrap(), &named.names);
                assert_eq!(check::read(&text).unwrap().book, named.book);
            }
            Err(mistakes) => {
                mistaken += 1;
                several += usize::from(mistakes.len() > 1);
                assert!(!mistakes.is_empty());
                let shown =
                    |mistake: &Mistake| mistake.show("payees.book", &source).lines().count();
                assert!(
                    mistakes.iter().all(|mistake| shown(mistake) == 3),
                    "{source}"
                );
            }
        }
    }
    assert!(books > 50 && mistaken > 100, "{books} {mistaken}");
    assert!(several * 10 < mistaken, "{several} of {mistaken}");
}

/// A variable that stands again has one number, written at any of its places.
#[test]
fn variables_that_stand_again() {
    let begin = "op a/0 op f/3 var X Y rule f(a, ";
    let read = |rest: &str| {
        let named = check::read(&format!("{begin}{rest}")).expect(rest);
        let book = read_book(&named.book).unwrap();
        printer::preorder(&book.rules[0].left)[2..].to_vec()
    };
    let both = |number| vec![Symbol::Variable(number); 2];
    assert_eq!(read("X, X) = X"), both(0));
    for left in ["X:3, X) = X", "X, X:3) = X", "X:3, X:3) = X"] {
        assert_eq!(read(left), both(3), "{left}");
    }
    assert_eq!(read("Y, Y) = a"), both(0));
    let two = [Symbol::Variable(1), Symbol::Variable(0)];
    assert_eq!(read("Y, X:0) = X"), two);
    let printed = |rest: &str| {
        let named = check::read(&format!("{begin}{rest}")).unwrap();
        let book = read_book(&named.book).unwrap();
        let text = printer::book(&book, &named.names);
        assert_eq!(check::read(&text).unwrap().book, named.book);
        text.lines().last().unwrap().to_owned()
    };
    assert_eq!(printed("X, X) = X"), "rule f(a, X0, X0) = X0");
    assert_eq!(printed("X:3, X) = X"), "rule f(a, X3:3, X3) = X3");
    assert_eq!(
        printed("f(Y, X, Y), f(X, Y, X)) = f(X, Y, X)"),
        "rule f(a, f(X0, X1, X0), f(X1, X0, X1)) = f(X1, X0, X1)"
    );
}

/// The commands do what the library does, through files.
#[test]
fn the_commands_turn_texts_to_books_and_back() {
    let packed = file("payees.packed", "");
    let text = file("payees.text", "");
    let ran = kurvneist(&["book", "examples/payees.book", "-o", &packed]);
    assert_eq!((ran.status, ran.errors.as_str()), (0, ""));
    let ran = kurvneist(&[
        "text",
        &packed,
        "--names",
        "examples/payees.book",
        "-o",
        &text,
    ]);
    assert_eq!((ran.status, ran.errors.as_str()), (0, ""));
    let again = file("payees.again", "");
    assert_eq!(kurvneist(&["book", &text, "-o", &again]).status, 0);
    assert_eq!(
        std::fs::read(&packed).unwrap(),
        std::fs::read(&again).unwrap()
    );
    let ran = kurvneist(&["text", &packed]);
    assert!(ran.output.contains("op f0/0\n"), "{}", ran.output);
    let ran = kurvneist(&["text", &packed, "--names", "examples/ticks.book"]);
    assert_eq!(ran.status, 3);
    assert!(ran.errors.contains("arities"), "{}", ran.errors);
}

#[test]
fn a_refused_book_is_told_in_words_and_number() {
    for (bytes, told) in [
        (&[0u8, 0][..], "refused 2: the book has no operator"),
        (&[0], "refused 1: "),
        (&[1, 0], "refused 1: "),
        (&[1, 0, 0, 0], "refused 9: "),
    ] {
        let ran = kurvneist(&["text", &file("refused.packed", bytes)]);
        assert_eq!((ran.status, ran.output.as_str()), (3, ""));
        assert!(ran.errors.contains(told), "{}", ran.errors);
    }
}

fn variable(symbol: &Symbol) -> Option<u8> {
    match symbol {
        Symbol::Variable(number) => Some(*number),
        Symbol::Operator(_) => None,
    }
}

// ---------------------------------------------------------------------------
// Random texts

/// Writes drafts as texts in any layout, with any names.
struct Writer {
    random: Random,
    names: Vec<String>,
    text: String,
}

const PIECES: [&str; 21] = [
    "Müller",
    "é",
    "ß",
    "İ",
    "König",
    "a",
    "B",
    "7",
    "2.OG",
    "x-y",
    "it's",
    "R&B",
    "_",
    "+",
    "東京",
    "Ωμέγα",
    "rent",
    "ops",
    "rules",
    "end",
    "from",
];

impl Writer {
    fn new(mut random: Random, draft: &Draft) -> Writer {
        let mut names: Vec<String> = Vec::new();
        for operator in &draft.operators {
            let mut name = if operator.arity == 1 && random.one_in(4) {
                String::from(*random.pick(&[",", "/", "=", "#", "(", "→", "?"]))
            } else {
                String::from(*random.pick(&PIECES))
            };
            while names.contains(&name) {
                name = format!("{}{}", random.pick(&PIECES), random.below(1000));
            }
            names.push(name);
        }
        Writer {
            random,
            names,
            text: String::new(),
        }
    }

    fn text(&mut self, draft: &Draft) -> String {
        self.put("var");
        for number in 0..16 {
            self.put(&format!("v{number}"));
        }
        for (number, operator) in draft.operators.iter().enumerate() {
            self.put("op");
            let name = self.names[number].clone();
            match name.chars().all(workbench::text::lexer::is_name_character) {
                true => self.put(&name),
                false => self.put(&format!("\"{name}\"")),
            }
            self.put("/");
            self.put(&operator.arity.to_string());
            if let Some(items) = &operator.strategy {
                self.put("(");
                for item in items {
                    self.put(
                        ["0", "1", "2", "3", "4", "5", "6", "7", "{", "}"][usize::from(*item)],
                    );
                }
                self.put(")");
            }
        }
        if draft.dated && draft.rules.is_empty() {
            self.from(7);
        }
        let mut before = None;
        for rule in &draft.rules {
            // The same day may be said again.
            if draft.dated && (before != Some(rule.day) || self.random.one_in(3)) {
                self.from(rule.day);
            }
            before = Some(rule.day);
            self.put("rule");
            self.side(draft, &rule.left, true);
            self.put("=");
            self.side(draft, &rule.right, false);
        }
        std::mem::take(&mut self.text)
    }

    fn from(&mut self, day: u16) {
        self.put("from");
        match self.random.one_in(2) {
            true => self.put(&day.to_string()),
            false => self.put(&day::date(day)),
        }
    }

    /// A token, and any space or comment behind it.
    fn put(&mut self, token: &str) {
        self.text.push_str(token);
        let space = ["\n", " ", " ", " ", "\t", "  ", " # (a comment\n", "\r\n"];
        let space = *self.random.pick(&space);
        self.text.push_str(space);
    }

    fn side(&mut self, draft: &Draft, symbols: &[Symbol], left: bool) {
        let variables: Vec<u8> = symbols.iter().filter_map(variable).collect();
        let in_order = variables.iter().copied().eq(0..variables.len() as u8);
        let mut open: Vec<usize> = Vec::new();
        for symbol in symbols {
            match symbol {
                Symbol::Variable(number) => {
                    self.put(&format!("v{number}"));
                    if left && !in_order {
                        self.put(":");
                        self.put(&number.to_string());
                    }
                }
                Symbol::Operator(number) => self.operator(*number),
            }
            open.push(draft.arity(*symbol));
            if draft.arity(*symbol) > 0 {
                self.put("(");
                continue;
            }
            self.close(&mut open);
        }
    }

    /// A character that is no name stands in quotes; its argument follows.
    fn operator(&mut self, number: u8) {
        let name = self.names[usize::from(number)].clone();
        match name.chars().all(workbench::text::lexer::is_name_character) {
            true => self.put(&name),
            false => self.put(&format!("\"{name}\"")),
        }
    }

    /// `open` holds the parts that are still due to each open operator.
    fn close(&mut self, open: &mut Vec<usize>) {
        open.pop();
        while let Some(due) = open.last_mut() {
            *due -= 1;
            if *due > 0 {
                self.put(",");
                return;
            }
            self.put(")");
            open.pop();
        }
    }
}
