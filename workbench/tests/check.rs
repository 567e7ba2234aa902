//! Warnings: each kind at its place, and true of every line.

mod common;

use common::json::{read_line, Value};
use common::{file, kurvneist, kurvneist_with};
use comparison::draft::{Draft, OperatorDraft, RuleDraft, Symbol};
use comparison::model::{self, Book, Form, Term};
use comparison::random::Random;
use kurvneist::{Engine, Request};
use workbench::profile::Profile;
use workbench::text::check::{self, Named};
use workbench::text::printer;
use workbench::trace::Told;
use workbench::warnings::{self, Kind, Warning};

fn warned(source: &str) -> Vec<Warning> {
    warnings::of(source, &check::read(source).expect(source), None)
}

/// Declarations for the books below; each name is used by their last rule.
const BEGIN: &str = "op a b/0 op f/1 op g z/2 op h/1 (0 1 0) op k/1 () var X Y\n";
const END: &str = "\nrule z(X, Y) = g(f(a), g(h(b), k(a)))";

/// Rules, and the one warning on them: kind, place, message.
const TABLE: &[(&str, Kind, (usize, usize), &str)] = &[
    ("rule f(X) = a\nrule f(a) = b", Kind::NeverFirst, (3, 6), "rule 1 (line 2) comes first and matches all that this rule matches; expected this rule before it"),
    ("rule g(X, a) = a rule g(f(X), a) = X", Kind::NeverFirst, (2, 23), "rule 1 (line 2) comes first and matches all that this rule matches; expected this rule before it"),
    ("rule h(a) = a rule h(b) = b rule h(f(X)) = X rule h(g(X, Y)) = X rule h(h(X)) = X rule h(k(X)) = X rule h(z(X, Y)) = Y\nrule h(X) = b", Kind::NeverFirst, (3, 6), "the rules before this one together match all that it matches; expected this rule before one of them"),
    ("rule g(X, Y) = X\nrule g(Y, X) = X", Kind::EqualLeft, (3, 6), "the left side is that of rule 1 (line 2), which comes first; expected each left side once: this rule never rewrites"),
    ("rule g(X, Y) = X\nrule g(Y, X) = Y", Kind::EqualLeft, (3, 6), "this is rule 1 (line 2) again; expected each left side once: this rule never rewrites"),
    ("rule g(X:3, Y) = X rule g(X, Y) = X", Kind::EqualLeft, (2, 25), "this is rule 1 (line 2) again; expected each left side once: this rule never rewrites"),
    ("rule g(X, Y) = X\nrule g(Y, Y) = a", Kind::NeverFirst, (3, 6), "rule 1 (line 2) comes first and matches all that this rule matches; expected this rule before it"),
    ("rule g(X, X) = X\nrule g(f(Y), f(Y)) = a", Kind::NeverFirst, (3, 6), "rule 1 (line 2) comes first and matches all that this rule matches; expected this rule before it"),
    ("rule g(X, X) = X\nrule g(Y, Y) = a", Kind::EqualLeft, (3, 6), "the left side is that of rule 1 (line 2), which comes first; expected each left side once: this rule never rewrites"),
    ("op p/2 (0 1 2 0) rule p(a, X) = a rule p(b, X) = a rule p(f(X), f(X)) = a rule p(g(X, Y), g(X, Y)) = a rule p(h(X), Y) = a rule p(k(X), Y) = a rule p(X, z(Y, X)) = a rule p(z(X, Y), z(X, Y)) = a rule p(p(X, X), Y) = a rule p(p(X, Y), p(X, Y)) = a\nrule p(X, X) = b", Kind::NeverFirst, (3, 6), "the rules before this one together match all that it matches; expected this rule before one of them"),
    ("rule g(X, X) = X\nrule h(g(b, b)) = a rule f(g(Y, Y)) = b", Kind::RewrittenBefore, (3, 28), "rule 1 (line 2) rewrites the part g(Y, Y) before this rule is tried; expected the part as the other rules leave it: this rule never rewrites"),
    ("rule k(X) = X", Kind::NeverTried, (2, 6), "the strategy of 'k' has no 0, so that this rule is never tried; expected a strategy that ends in 0"),
    ("rule f(a) = b\nrule g(X, f(a)) = X", Kind::RewrittenBefore, (3, 11), "rule 1 (line 2) rewrites the part f(a) before this rule is tried; expected the part as the other rules leave it: this rule never rewrites"),
    ("rule f(f(f(X))) = X rule f(X) = X", Kind::RewrittenBefore, (2, 8), "rule 2 (line 2) rewrites the part \"ff\"(X) before this rule is tried; expected the part as the other rules leave it: this rule never rewrites"),
    ("rule f(a) = b\nrule g(f(f(b)), f(a)) = b", Kind::RewrittenBefore, (3, 17), "rule 1 (line 2) rewrites the part f(a) before this rule is tried; expected the part as the other rules leave it: this rule never rewrites"),
    ("rule g(h(f(a)), X) = X rule f(a) = b", Kind::RewrittenBefore, (2, 10), "rule 2 (line 2) rewrites the part f(a) before this rule is tried; expected the part as the other rules leave it: this rule never rewrites"),
    ("from 2026-07-01 rule g(X, Y) = X\nrule g(Y, X) = a\nfrom 2026-10-01 rule g(X, Y) = b", Kind::Replaced, (2, 22), "the left side is that of rule 2 (line 3), the last of this day; expected each left side once a day: this rule stands on no day"),
    ("from 1 rule f(X) = a\nrule f(a) = b", Kind::NeverFirst, (3, 6), "rule 1 (line 2) comes first and matches all that this rule matches; expected this rule before it"),
    ("rule f(X) = f(X)", Kind::SameSides, (2, 13), "the right side is the left side; expected another: once the rule rewrites, it does so until the budget is spent"),
    ("op unused/0", Kind::UnusedOperator, (2, 4), "no rule names 'unused'; expected a rule that does, unless lines name it (a guess)"),
    ("var Z", Kind::UnusedVariable, (2, 5), "no rule names the variable 'Z'; expected a rule that does, or no declaration"),
    ("op s/3 (2 0) rule s(X, a, b) = X", Kind::SkippedArgument, (2, 9), "the strategy leaves out arguments 1 and 3; expected all arguments, unless what stands there is to stay as it is"),
    ("op s/4 ({3 3} 0 0) rule s(X, a, b, a) = X", Kind::SkippedArgument, (2, 9), "the strategy leaves out arguments 1, 2 and 4; expected all arguments, unless what stands there is to stay as it is"),
];

/// The book of the table has a warning of its own: k leaves out its argument.
#[test]
fn each_kind_is_told_at_its_place() {
    for (rules, kind, place, message) in TABLE {
        let source = format!("{BEGIN}{rules}{END}");
        let found = warned(&source);
        let told: Vec<_> = found
            .iter()
            .map(|one| (one.kind, one.mistake.place(&source), one.mistake.message()))
            .collect();
        let own = "the strategy leaves out argument 1; expected all arguments, unless what stands there is to stay as it is";
        assert_eq!(told[0], (Kind::SkippedArgument, (1, 49), own.into()));
        assert_eq!(told[1..], [(*kind, *place, (*message).into())], "{rules}");
    }
    for kind in Kind::ALL {
        assert!(TABLE.iter().any(|(_, told, ..)| *told == kind), "{kind:?}");
    }
}

/// What is nearly one of these is none.
#[test]
fn what_is_sound_is_not_warned_of() {
    for rules in [
        "",
        "rule f(a) = b\nrule f(X) = a",
        "rule g(X, a) = a rule g(b, X) = b",
        // What begins with z is left for the last rule.
        "rule h(a) = a rule h(b) = b rule h(f(X)) = X rule h(g(X, Y)) = X rule h(h(X)) = X rule h(k(X)) = X\nrule h(X) = b",
        // h tries rules before it visits its argument, and k visits nothing.
        "rule f(a) = b rule h(f(a)) = b rule g(k(f(a)), X) = X",
        // A part that only some of its instances give a rule to.
        "rule f(a) = b rule g(f(X), a) = X",
        "rule g(X, Y) = g(Y, X)",
        // Parts that are equal, and parts that may be others.
        "rule g(X, X) = X\nrule g(X, Y) = a",
        "rule g(X, X) = X\nrule g(f(X), f(Y)) = a",
        "rule g(X, f(X)) = X\nrule g(X, f(Y)) = a",
        "rule g(X, g(X, Y)) = a\nrule g(Y, g(X, Y)) = b",
        "rule g(X, X) = X\nrule f(g(X, Y)) = b",
    ] {
        let source = format!("{BEGIN}{rules}{END}");
        let found = warned(&source);
        assert_eq!(found.len(), 1, "{rules} {found:?}");
    }
    // Texts use all letters; a character of a string is no variable, while
    // what ends a string may be one.
    assert!(warned("op letters").is_empty());
    let spelled = warned("op letters var X rule \"aX\" = end");
    assert_eq!(spelled.len(), 1);
    assert_eq!(spelled[0].kind, Kind::UnusedVariable);
    assert!(warned("op a/1 var end rule \"a\" = end").is_empty());
}

const ARITIES: [u8; 4] = [0, 1, 2, 0];

/// Few operators with any strategy, and small left sides, so that rules get in
/// each other's way. They are smaller where variables stand again: to keep parts
/// apart, a term then is deeper than its left side by one operator more.
fn draft(random: &mut Random) -> Draft {
    let count = random.between(3, 4);
    let strategies: &[&[&[u8]]] = &[
        &[&[0], &[]],
        &[&[1, 0], &[0, 1, 0], &[0], &[]],
        &[&[1, 2, 0], &[8, 1, 2, 9, 0], &[2, 0, 1, 0], &[1, 0], &[]],
        &[&[0]],
    ];
    let operators = (0..count).map(|number| OperatorDraft {
        arity: ARITIES[number],
        strategy: match random.one_in(3) {
            true => Some(random.pick(strategies[number]).to_vec()),
            false => None,
        },
    });
    let operators: Vec<OperatorDraft> = operators.collect();
    let again = random.one_in(2);
    let rules = (0..random.between(2, 6)).map(|_| {
        let mut left = Vec::new();
        let depth = if again { 2 } else { 3 };
        part(random, count, depth, again, &mut left);
        let variables = left
            .iter()
            .filter(|symbol| matches!(symbol, Symbol::Variable(_)));
        let right = match variables.copied().next() {
            Some(variable) if random.one_in(2) => variable,
            _ => Symbol::Operator(0),
        };
        RuleDraft::new(left, vec![right])
    });
    let rules = rules.collect();
    Draft::new(operators, rules)
}

fn part(random: &mut Random, count: usize, depth: usize, again: bool, side: &mut Vec<Symbol>) {
    if !side.is_empty() && (depth == 0 || random.one_in(3)) {
        let variables = side
            .iter()
            .filter(|symbol| matches!(symbol, Symbol::Variable(_)));
        let variables: Vec<Symbol> = variables.copied().collect();
        return side.push(match variables.is_empty() || !again || random.one_in(2) {
            true => Symbol::Variable(variables.len() as u8),
            false => *random.pick(&variables),
        });
    }
    let operator = match side.is_empty() && again {
        true => 2,
        false => random.below(count),
    };
    side.push(Symbol::Operator(operator as u8));
    for _ in 0..ARITIES[operator] {
        part(random, count, depth - 1, again, side);
    }
}

/// All terms of at most that depth.
fn terms(book: &Book, depth: usize) -> Vec<Term> {
    if depth == 0 {
        return Vec::new();
    }
    let parts = terms(book, depth - 1);
    let mut all = Vec::new();
    for (number, operator) in (0..).zip(&book.operators) {
        let mut rows = vec![Vec::new()];
        for _ in 0..operator.arity {
            let longer = |row: &Vec<Term>| {
                let row = row.clone();
                parts
                    .iter()
                    .map(move |part| [&row[..], std::slice::from_ref(part)].concat())
            };
            rows = rows.iter().flat_map(longer).collect();
        }
        let terms = rows.into_iter();
        all.extend(terms.map(|arguments| Term::new(number, arguments)));
    }
    all
}

/// The rules of those kinds, counted from 0. Each has a line of its own.
fn of_kinds(found: &[Warning], kinds: &[Kind], source: &str, named: &Named) -> Vec<usize> {
    let lines = found
        .iter()
        .filter(|one| kinds.contains(&one.kind))
        .map(|one| one.mistake.place(source).0);
    let rule = |line| named.rule_lines.iter().position(|rule| *rule == line);
    lines.filter_map(rule).collect()
}

fn repeats(side: &[Symbol]) -> bool {
    let is_variable = |symbol: &&Symbol| matches!(symbol, Symbol::Variable(_));
    side.iter().filter(is_variable).count() > printer::variables(side).len()
}

/// Left sides of at most three operators' depth are told apart by terms of
/// depth four.
#[test]
fn rules_are_warned_of_exactly_if_they_are_never_the_first_match() {
    let mut random = Random::new(15);
    let (mut never, mut sometimes, mut repeated) = (0, 0, [0; 2]);
    for _ in 0..250 {
        let book = kurvneist::written_book(&draft(&mut random).encode()).unwrap();
        let book = model::read_book(&book).unwrap();
        let source = printer::book(&book, &workbench::names::Names::generated(&book));
        let named = check::read(&source).unwrap();
        let found = warned(&source);
        let kinds = [Kind::NeverFirst, Kind::EqualLeft];
        let told = of_kinds(&found, &kinds, &source, &named);
        // A rule that is never tried is told as that.
        let untried = of_kinds(&found, &[Kind::NeverTried], &source, &named);
        let mut first = vec![false; book.rules.len()];
        for term in terms(&book, 4) {
            if let Some((rule, _)) = book.first_match(&term) {
                let place = book
                    .rules
                    .iter()
                    .position(|other| std::ptr::eq(other, rule));
                first[place.unwrap()] = true;
            }
        }
        for (rule, first) in first.into_iter().enumerate() {
            if !untried.contains(&rule) {
                assert_eq!(told.contains(&rule), !first, "rule {rule} of\n{source}");
                *(if first { &mut sometimes } else { &mut never }) += 1;
                let left = printer::preorder(&book.rules[rule].left);
                repeated[usize::from(first)] += usize::from(repeats(&left));
            }
        }
    }
    assert!(never > 50 && sometimes > 200, "{never} {sometimes}");
    assert!(repeated.iter().all(|count| *count > 10), "{repeated:?}");
}

/// The proved engine reduces every term of depth three: none of the rules that
/// are said never to rewrite does, and others do.
#[test]
fn rules_that_never_rewrite_never_do() {
    let silent = [
        Kind::NeverFirst,
        Kind::EqualLeft,
        Kind::NeverTried,
        Kind::RewrittenBefore,
    ];
    let mut random = Random::new(16);
    let mut engine = Engine::new();
    let schedule = [0, 1].repeat(60);
    let (mut before, mut used) = (0, 0);
    for _ in 0..200 {
        let bytes = kurvneist::written_book(&draft(&mut random).encode()).unwrap();
        let book = model::read_book(&bytes).unwrap();
        let source = printer::book(&book, &workbench::names::Names::generated(&book));
        let named = check::read(&source).unwrap();
        let found = warned(&source);
        let told = of_kinds(&found, &silent, &source, &named);
        before += of_kinds(&found, &[Kind::RewrittenBefore], &source, &named).len();
        let profile = Profile::new(&bytes, 0);
        for term in terms(&book, 4) {
            let line = term.preorder();
            let request = Request::new(&bytes, &line)
                .units(2)
                .budget(20)
                .schedule(&schedule);
            let posting = engine.post(&request).unwrap();
            let told = Told::of(&posting.answer, posting.term);
            profile.add(Form::Line, &request, &told);
        }
        assert!(profile.difference().is_none());
        for (rule, count) in profile.rules() {
            let silent = told.contains(&(rule - 1));
            assert!(!silent || count.rewrites == 0, "rule {rule} of\n{source}");
            used += usize::from(count.rewrites > 0);
        }
    }
    assert!(before > 30 && used > 300, "{before} {used}");
}

/// In a dated book: none of the rules that are said never to rewrite does so on
/// any day, and those that are the first match on no day are told.
#[test]
fn rules_that_never_rewrite_never_do_on_any_day() {
    let silent = [
        Kind::NeverFirst,
        Kind::NeverTried,
        Kind::RewrittenBefore,
        Kind::Replaced,
    ];
    let mut random = Random::new(17);
    let mut engine = Engine::new();
    let schedule = [0, 1].repeat(60);
    let (mut replaced, mut warned_of, mut used) = (0, 0, 0);
    for _ in 0..100 {
        let mut draft = draft(&mut random).dated();
        for rule in &mut draft.rules {
            rule.day = random.between(1, 3) as u16;
        }
        let bytes = kurvneist::written_book(&draft.encode()).unwrap();
        let book = model::read_book(&bytes).unwrap();
        let source = printer::book(&book, &workbench::names::Names::generated(&book));
        let named = check::read(&source).unwrap();
        let found = warned(&source);
        let told = of_kinds(&found, &silent, &source, &named);
        replaced += of_kinds(&found, &[Kind::Replaced], &source, &named).len();
        warned_of += told.len();
        let mut first = vec![false; book.rules.len()];
        for day in 0..=4 {
            let profile = Profile::new(&bytes, day);
            for term in terms(&book, 3) {
                let line = term.preorder();
                let request = Request::new(&bytes, &line)
                    .units(2)
                    .budget(20)
                    .day(day)
                    .schedule(&schedule);
                let posting = engine.post(&request).unwrap();
                let told = Told::of(&posting.answer, posting.term);
                profile.add(Form::Line, &request, &told);
            }
            assert!(profile.difference().is_none());
            for (rule, count) in profile.rules() {
                let silent = told.contains(&(rule - 1));
                assert!(!silent || count.rewrites == 0, "rule {rule} of\n{source}");
                used += usize::from(count.rewrites > 0);
            }
            let of_day = book.on_day(day);
            for term in terms(&book, 4) {
                if let Some((rule, _)) = of_day.first_match(&term) {
                    first[rule.place] = true;
                }
            }
        }
        for (rule, first) in first.into_iter().enumerate() {
            assert!(first || told.contains(&rule), "rule {rule} of\n{source}");
        }
    }
    assert!(replaced > 10 && warned_of > 60, "{replaced} {warned_of}");
    assert!(used > 300, "{used}");
}

/// A rule whose left side is a row of 12 parts, with these at their places.
fn row(places: &[(usize, &str)]) -> String {
    let part = |at: usize| match places.iter().find(|(place, _)| *place == at) {
        Some((_, part)) => format!("f({}, ", part.replace('?', &at.to_string())),
        None => format!("f(X{at}, "),
    };
    let parts: String = (0..12).map(part).collect();
    format!("rule {parts}a{} = a\n", ")".repeat(12))
}

/// Rules that together match all rows are found; where it would take too long,
/// nothing is said, and soon.
#[test]
fn hard_questions_are_left_open() {
    let variables: String = (0..12).map(|at| format!(" X{at} Y{at} Z{at}")).collect();
    let begin = format!("op a b/0 op f/2 var{variables}\n");
    let values = ["a", "b", "f(Y?, Z?)"];
    let is_told = |rules: String| {
        let source = format!("{begin}{rules}{}", row(&[]));
        let last = source.lines().count();
        let told = |one: &Warning| one.mistake.place(&source).0 == last;
        warned(&source).iter().any(told)
    };
    let pairs = values.map(|one| values.map(|other| row(&[(7, one), (11, other)])));
    let mut pairs = pairs.concat();
    assert!(is_told(pairs.concat()));
    pairs.pop();
    assert!(!is_told(pairs.concat()));

    let mut random = Random::new(17);
    let started = std::time::Instant::now();
    let clauses = (0..254).map(|_| {
        let mut places: Vec<usize> = (0..12).collect();
        random.shuffle(&mut places);
        let parts: Vec<(usize, &str)> = places[..3]
            .iter()
            .map(|at| (*at, *random.pick(&values)))
            .collect();
        row(&parts)
    });
    assert!(!is_told(clauses.collect()));
    assert!(started.elapsed().as_secs() < 30);
}

#[test]
fn the_command_tells_warnings_and_errors() {
    let source = "op a b/0\nop f/1\nvar X\nrule f(X) = a\nrule f(a) = a\n";
    let text = file("warned.book", source);
    let shown = |word: &str| {
        format!(
            "{text}:1:6: {word}no rule names 'b'; expected a rule that does, unless lines name it (a guess)\n   \
             1 | op a b/0\n     |      ^\n\
             {text}:5:6: {word}rule 1 (line 4) comes first and matches all that this rule matches; expected this rule before it\n   \
             5 | rule f(a) = a\n     |      ^^^^\n"
        )
    };
    let ran = kurvneist(&["check", &text]);
    let expected = format!("{}{text}: 2 warnings\n", shown("warning: "));
    assert_eq!((ran.status, ran.errors.as_str()), (0, ""));
    assert_eq!(ran.output, expected);

    let ran = kurvneist(&["check", &text, "--strict"]);
    assert_eq!((ran.status, ran.errors.as_str()), (3, ""));
    assert_eq!(ran.output, format!("{}{text}: 2 errors\n", shown("")));

    let ran = kurvneist(&["check", &text, "--strict", "--allow", "unused-operator"]);
    assert_eq!(ran.status, 3);
    assert!(ran.output.ends_with(": 1 error\n") && !ran.output.contains("'b'"));
    let both = [
        "check",
        &text,
        "--strict",
        "--allow=unused-operator, never-first",
    ];
    let ran = kurvneist(&both);
    assert_eq!(
        (ran.status, ran.output),
        (0, format!("{text}: no errors\n"))
    );

    let ran = kurvneist_with(&["check", "-"], b"op a/0 rule a = a");
    assert!(ran.output.starts_with("-:1:17: warning: the right side"));
    let ran = kurvneist(&["check", &text, "--allow", "unused"]);
    assert_eq!(ran.status, 2);
    let known =
        "--allow unused: expected kinds of warnings: never-first, equal-left, never-tried, ";
    assert!(ran.errors.contains(known), "{}", ran.errors);
}

#[test]
fn the_example_books_are_sound() {
    for book in ["ticks", "payees", "suppliers", "accounts"] {
        let book = &format!("examples/{book}.book");
        let ran = kurvneist(&["check", book, "--strict", "--allow", "unused-operator"]);
        assert_eq!(
            (ran.status, ran.output),
            (0, format!("{book}: no errors\n"))
        );
    }
}

#[test]
fn mistakes_come_before_warnings() {
    let plain = kurvneist(&["book", "examples/mistaken.book"]);
    let checked = kurvneist(&["check", "examples/mistaken.book"]);
    assert_eq!((checked.status, checked.output.as_str()), (3, ""));
    assert_eq!(checked.errors, plain.errors);
}

#[test]
fn checks_in_json() {
    let text = file("json.book", "op a \"\\\"/1\nop b/0\nrule a(b) = b\n");
    let report = |arguments: &[&str]| {
        let ran = kurvneist(&[&["check", &text, "--json"], arguments].concat());
        assert_eq!(ran.errors, "");
        (ran.status, read_line(&ran.output))
    };
    for (arguments, status, level, counts) in [
        (&[][..], 0, "warning", [0, 1]),
        (&["--strict"][..], 3, "error", [1, 0]),
    ] {
        let (ended, told) = report(arguments);
        assert_eq!(ended, status);
        assert_eq!(told.names(), ["book", "errors", "warnings", "diagnostics"]);
        assert_eq!(told.get("book").text(), text);
        assert_eq!(
            ["errors", "warnings"].map(|name| told.get(name).number()),
            counts
        );
        let [only] = told.get("diagnostics").list() else {
            panic!("{told:?}")
        };
        let names = ["level", "kind", "certain", "line", "column", "message"];
        assert_eq!(only.names(), names);
        assert_eq!(only.get("level").text(), level);
        assert_eq!(only.get("kind").text(), "unused-operator");
        assert_eq!(only.get("certain"), &Value::Bool(false));
        assert_eq!(
            ["line", "column"].map(|name| only.get(name).number()),
            [1, 6]
        );
        let message =
            "no rule names '\\'; expected a rule that does, unless lines name it (a guess)";
        assert_eq!(only.get("message").text(), message);
    }
    let ran = kurvneist(&["check", "examples/mistaken.book", "--json"]);
    assert_eq!((ran.status, ran.errors.as_str()), (3, ""));
    let told = read_line(&ran.output);
    assert_eq!(told.get("errors").number(), 5);
    let refusals = told
        .get("diagnostics")
        .list()
        .iter()
        .map(|one| one.get("refusal"));
    let due = [
        Value::Null,
        Value::Number(3),
        Value::Number(3),
        Value::Number(5),
        Value::Null,
    ];
    assert!(refusals.eq(due.iter()));
}
