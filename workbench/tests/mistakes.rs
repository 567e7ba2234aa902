//! Each mistake gets one message, at its place.

mod common;

use common::{file, kurvneist};
use comparison::draft::{Draft, OperatorDraft, RuleDraft, Symbol};
use workbench::line;
use workbench::mistake::Mistake;
use workbench::text::check;

/// A text with one mistake, its place, and the message.
const TABLE: &[(&str, (usize, usize), &str)] = &[
    // Statements
    ("", (1, 1), "the book has no operator; expected 'op NAME/ARITY' (refusal 2)"),
    ("# nothing\n", (1, 1), "the book has no operator; expected 'op NAME/ARITY' (refusal 2)"),
    ("tick/1", (1, 1), "found 'tick'; expected 'op', 'var', 'rule' or 'from'"),
    ("op a/0\n  a = a", (2, 3), "found 'a'; expected a strategy in parentheses, 'op', 'var', 'rule' or 'from'"),
    ("op a/0\nop", (2, 3), "the text ends; expected an operator's name"),
    ("op a/0\nop /1", (2, 4), "found '/'; expected an operator's name"),
    ("op a/0\nvar", (2, 4), "the text ends; expected a variable's name"),
    ("op a/0 var X, Y", (1, 13), "found ','; expected another name, 'op', 'var', 'rule' or 'from'"),
    ("op op/0", (1, 4), "'op' begins a statement; expected an operator's name"),
    ("op a/0 rule rule = a", (1, 13), "'rule' begins a statement; expected a term"),
    ("op a/0\nop a/0", (2, 4), "'a' is declared already on line 1; expected a new name"),
    ("op a f/1\nvar f rule a(f) = f", (2, 5), "'f' is declared already on line 1; expected a new name"),
    ("op é/0\nop e\u{301}/0", (2, 5), "an accent stands apart from its letter (U+0301); expected letter and accent as one character"),
    ("op a/0 @", (1, 8), "found '@'; expected a strategy in parentheses, 'op', 'var', 'rule' or 'from'"),
    ("\u{3}\u{2}", (1, 1), "found U+0003 (control character); expected a text; a packed book is read by 'kurvneist text' or with --packed"),
    // Days
    ("op a/0\nfrom", (2, 5), "the text ends; expected a date from 1970-01-01 to 2149-06-06, or a number from 0 to 65535"),
    ("op a/0\nfrom July rule a = a", (2, 6), "'July' is no day; expected a date from 1970-01-01 to 2149-06-06, or a number from 0 to 65535"),
    ("op a/0\nfrom 1.7.2026\nrule a = a", (2, 6), "'1.7.2026' is no day; expected a date from 1970-01-01 to 2149-06-06, or a number from 0 to 65535"),
    ("op a/0\nfrom 2026-02-29\nrule a = a", (2, 6), "there is no 2026-02-29 in the calendar; expected a date from 1970-01-01 to 2149-06-06, or a number from 0 to 65535"),
    ("op a/0\nfrom 1969-12-31\nrule a = a", (2, 6), "1969-12-31 is before 1970-01-01, day 0; expected a date from 1970-01-01 to 2149-06-06, or a number from 0 to 65535"),
    ("op a/0\nfrom 2149-06-07\nrule a = a", (2, 6), "2149-06-07 is past 2149-06-06, day 65535; expected a date from 1970-01-01 to 2149-06-06, or a number from 0 to 65535"),
    ("op a/0\nfrom 65536\nrule a = a", (2, 6), "'65536' is past day 65535; expected a date from 1970-01-01 to 2149-06-06, or a number from 0 to 65535"),
    ("op a/0\nfrom 1 2\nrule a = a", (2, 8), "found '2'; expected 'op', 'var', 'rule' or 'from' after the day"),
    ("op a b/0\nrule a = b\nrule b = a\nfrom 2026-07-01\nrule a = a", (2, 1), "this rule has no day, and others have; expected 'from' and a day before it; 'from 0' if it holds ever since"),
    ("op f/1 op a/0\nfrom 1\nrule f(a\nfrom 2\nrule a = a", (3, 7), "'(' isn't closed; expected ',' or ')' before 'from' in line 4, column 1"),
    // Arities
    ("op a", (1, 5), "the text ends; expected '/' and the arity, as in 'both/2'"),
    ("op a: 2", (1, 5), "found ':'; expected '/' and the arity, as in 'both/2'"),
    ("op a/8", (1, 6), "found '8'; expected an arity from 0 to 7"),
    ("op a/two", (1, 6), "found 'two'; expected an arity from 0 to 7"),
    ("op a/-1", (1, 6), "found '-1'; expected an arity from 0 to 7"),
    ("op \"ab\"/1", (1, 4), "found '\"ab\"'; expected a single character in the quotes, or a name without quotes"),
    ("op \",\"/2", (1, 4), "',' can stand in strings only; expected arity 1 for it"),
    // Strategies
    ("op f/2 (1 3 0)", (1, 11), "there is no such argument; expected an argument from 1 to 2 (refusal 3)"),
    ("op a/0 (1 0)", (1, 9), "there is no such argument; expected no argument's number, the arity being 0 (refusal 3)"),
    ("op f/2 (1 2)", (1, 12), "the strategy's last item is not '0'; expected '0' before it (refusal 3)"),
    ("op f/2 (0 {1 2})", (1, 16), "the strategy's last item is not '0'; expected '0' before it (refusal 3)"),
    ("op f/2 ({1 {2}} 0)", (1, 12), "a group opens in a group; expected arguments, then '}' (refusal 3)"),
    ("op f/2 (1} 0)", (1, 10), "no group is open here; expected '{' before it (refusal 3)"),
    ("op f/2 ({1 0 2} 0)", (1, 12), "'0' stands in a group; expected arguments, then '}' (refusal 3)"),
    ("op f/2 ({1 2 0)", (1, 9), "the group isn't closed; expected '}' before '0' in column 14 (refusal 3)"),
    ("op f/2 ({1\n 2 0)", (1, 9), "the group isn't closed; expected '}' before '0' in line 2, column 4 (refusal 3)"),
    ("op f/2 ({1 {2} 0)", (1, 9), "the group isn't closed; expected '}' before '0' in column 16 (refusal 3)"),
    ("op f/2 ({1} {2 0)", (1, 13), "the group isn't closed; expected '}' before '0' in column 16 (refusal 3)"),
    ("op f/2 ({1 2)", (1, 9), "the group isn't closed; expected '}' before ')' in column 13 (refusal 3)"),
    ("op f/2 ({1 2\nop a/0", (1, 9), "'{' isn't closed; expected '}' before 'op' in line 2, column 1"),
    ("op f/2 ({1 2} 0\nop a/0", (1, 8), "'(' isn't closed; expected ')' before 'op' in line 2, column 1"),
    ("op f/2 (1, 2, 0)", (1, 10), "found ','; expected '0' for the whole term, an argument's number, '{', '}' or ')'"),
    ("op f/2 (8 0)", (1, 9), "found '8'; expected '0' for the whole term, an argument's number, '{', '}' or ')'"),
    ("op f/2 (1 2 0", (1, 8), "'(' isn't closed; expected ')' before the text ends"),
    // Terms
    ("op f/2 op a/0\nrule f(a, a = a", (2, 7), "'(' isn't closed; expected ',' or ')' before '=' in column 13"),
    ("op f/2 op a/0\nrule f(a a) = a", (2, 10), "found 'a'; expected ',' or ')': still open is the '(' in column 7"),
    ("op f/2 op a/0\nrule f(a\na) = a", (3, 1), "found 'a'; expected ',' or ')': still open is the '(' in line 2, column 7"),
    ("op f/2 op a/0\nrule f(a\n\nrule a = a", (2, 7), "'(' isn't closed; expected ',' or ')' before 'rule' in line 4, column 1"),
    ("op f/2 op a/0\nrule f(a, f(a, a) = a", (2, 7), "'(' isn't closed; expected ',' or ')' before '=' in column 19"),
    ("op f/2 op a/0\nrule f(a, f(a, a = a", (2, 12), "'(' isn't closed; expected ',' or ')' before '=' in column 18"),
    ("op f/2 op a/0\nrule f(a, ) = a", (2, 11), "found ')'; expected a term"),
    ("op f/2 op a/0\nrule f(a,\nrule a = a", (2, 7), "'(' isn't closed; expected a term and ')' before 'rule' in line 3, column 1"),
    ("op f/2 op a/0\nrule f(a) = a", (2, 6), "'f' stands with 1 argument; expected 2"),
    ("op f/1 op a/0\nrule f(a, a) = a", (2, 6), "'f' stands with 2 arguments; expected 1"),
    ("op f/1 op a/0\nrule f(a) = f", (2, 13), "'f' stands without arguments; expected 1"),
    ("op f/1 op a/0\nrule f(a(a)) = a", (2, 8), "'a' stands with 1 argument; expected none"),
    ("op a/0 rule a() = a", (1, 15), "found ')'; expected a term; a constant stands without parentheses"),
    ("op müller f/1 op a/0\nrule f(mueller(a)) = a", (2, 8), "'mueller' is unknown; expected an operator or a variable that is declared, such as 'müller'"),
    ("op f/1 op a/0\nrule f(Anything) = a", (2, 8), "'Anything' is unknown; expected an operator or a variable that is declared"),
    ("op f/1 op a/0\nrule f(\"ab) = a", (2, 8), "a string isn't closed; expected '\"' on the same line"),
    ("op é/1 op end/0\nrule \"éè\" = end", (2, 8), "the string needs the operator 'è', which is not declared; expected a one-argument operator for each character, '_' for a space, and 'end'"),
    ("op é/1\nrule \"éé\" = é", (2, 9), "the string needs the operator 'end', which is not declared; expected a one-argument operator for each character, '_' for a space, and 'end'"),
    ("op é/1 op a/0\nrule \"\"(a) = a", (2, 8), "found '('; expected at least one character in the string before it"),
    // Rules
    ("op f/1 op a/0\nrule f(a) -> a", (2, 11), "found '-'; expected '=' between the sides of the rule"),
    ("op f/1 op a/0\nrule f(a)\nrule a = a", (2, 1), "the rule has no right side; expected '=' and a term before 'rule' in line 3, column 1"),
    ("op f/1 op a/0\nrule f(a) =\nvar X", (2, 1), "the rule has no right side; expected a term behind '=' before 'var' in line 3, column 1"),
    ("op f/1 op a/0\nrule f(a)\n", (2, 1), "the rule has no right side; expected '=' and a term before the text ends"),
    ("op f/1 op a/0\nrule f(a) = = a", (2, 1), "the rule has no right side; expected a term behind '=' before '=' in column 13"),
    ("op f/1 op a/0\nrule f(a) = a)", (2, 14), "found ')'; expected 'op', 'var', 'rule' or 'from' after the rule"),
    ("op f/1 op a/0\nrule f(a) =", (2, 1), "the rule has no right side; expected a term behind '=' before the text ends"),
    ("op f/1 var X\nrule X = f(X)", (2, 6), "the left side is a variable; expected an operator at its root (refusal 5)"),
    ("op f/1 var X Y\nrule f(X) = f(Y)", (2, 15), "'Y' is absent on the left; expected a variable of the left side (refusal 7)"),
    ("op f/1 var X\nrule f(X(X)) = X", (2, 8), "'X' is a variable; expected an operator before the arguments"),
    ("op f/2 var X Y\nrule f(X:1, Y:1) = Y", (2, 15), "another variable of this side has the number 1; expected a number of its own"),
    ("op f/2 var X\nrule f(X:1, X:2) = X", (2, 15), "'X' has the number 1 in this side; expected one number for a variable"),
    ("op f/2 var X Y\nrule f(X:16, Y) = Y", (2, 10), "found '16'; expected a variable's number from 0 to 15"),
    ("op f/2 var X Y\nrule f(X, Y) = Y:1", (2, 18), "a number stands in the right side; expected variables' numbers in the left side only"),
    ("op f/1 op a/0\nrule f(a:1) = a", (2, 10), "'a' is not a variable; expected a number behind a variable only"),
];

fn only(source: &str) -> Mistake {
    let mut mistakes = check::read(source).expect_err(source);
    assert_eq!(mistakes.len(), 1, "{source}\n{mistakes:?}");
    mistakes.remove(0)
}

#[test]
fn each_mistake_has_one_message_at_its_place() {
    for (source, place, message) in TABLE {
        let mistake = only(source);
        assert_eq!(mistake.message(), *message, "{source}");
        assert_eq!(mistake.place(source), *place, "{source}");
    }
}

#[test]
fn limits_of_the_layout_are_told_where_they_are_passed() {
    let names: Vec<String> = (0..256).map(|number| format!("f{number}")).collect();
    let many = format!("op {}/0", names.join(" "));
    let mistake = only(&many);
    assert_eq!(
        mistake.message(),
        "this is the 256th operator; expected at most 255 operators"
    );
    assert_eq!(&many[mistake.span.start..mistake.span.end], "f255");

    let rules = format!("op a/0\n{}", "rule a = a\n".repeat(256));
    let mistake = only(&rules);
    assert_eq!(
        mistake.message(),
        "this is the 256th rule; expected at most 255 rules"
    );
    assert_eq!(mistake.place(&rules), (257, 1));

    let items = format!("op f/1 ({}0)", "1 ".repeat(31));
    let expected = "the strategy has over 31 items; expected at most 31, counting each '{' and '}'";
    assert_eq!(only(&items).message(), expected);
}

#[test]
fn limits_of_a_rule_are_told_where_they_are_passed() {
    let side = format!(
        "op f/1 op a/0\nrule a = {}a{}",
        "f(".repeat(64),
        ")".repeat(64)
    );
    let mistake = only(&side);
    let expected =
        "the side goes on after 64 symbols; expected a side of 1 to 64 symbols (refusal 8)";
    assert_eq!(mistake.message(), expected);
    assert_eq!(mistake.place(&side), (2, 10 + 2 * 64));

    let variables: Vec<String> = (0..17).map(|number| format!("X{number}")).collect();
    let (list, commas) = (variables.join(" "), variables[..6].join(", "));
    let rest = |from: usize| variables[from..from + 6].join(", ");
    let seventeen = format!(
        "op f/6 op g/3 var {list}\nrule g(f({commas}), f({}), f({}, X16, X0)) = X0",
        rest(6),
        variables[12..16].join(", ")
    );
    let expected = "this is the 17th variable of the rule; expected at most 16 variables in a rule";
    assert_eq!(only(&seventeen).message(), expected);
}

fn places(source: &str) -> Vec<(usize, usize)> {
    let mistakes = check::read(source).unwrap_err();
    mistakes.iter().map(|one| one.place(source)).collect()
}

#[test]
fn several_mistakes_are_told_in_order_once_each() {
    let source = "op f/1 op a/0\nop h/2 (1)\nrule f(a) = b\nrule f(a) = a)\nrule f(a, a) = a\n";
    assert_eq!(places(source), [(2, 10), (3, 13), (4, 14), (5, 6)]);
}

/// A mistake in a declaration isn't told again where its names are used, nor
/// an unknown name where it is used again.
#[test]
fn one_mistake_is_not_told_as_several() {
    for (source, place) in [
        ("op a/0\nop f g/9\nrule f(a) = g(a)", (2, 8)),
        ("op a/0\nop f, g/1\nrule f(a) = g(a)", (2, 5)),
        ("op a/0\nop \"; \",\"/1\nrule \",\"(a) = \";\"(a)", (2, 4)),
        ("op a/0 op f/2\nvar X: Y\nrule f(X, Y) = X", (2, 6)),
        ("op a/0 op f/1\nvar X a\nrule f(a) = a", (2, 7)),
        ("op a/0 op f/1\nrule f(b) = a\nrule f(a) = b", (2, 8)),
        ("op a/0 op f/1\nrule f(b) = a)\n", (2, 14)),
        ("op a/0 op f/1 (1)\nrule f(a) = a\n", (1, 17)),
    ] {
        assert_eq!(places(source), [place], "{source}");
    }
}

/// What the limits just allow is no mistake.
#[test]
fn the_limits_themselves_are_reached() {
    let names: Vec<String> = (0..253).map(|number| format!("f{number}")).collect();
    let variables: Vec<String> = (0..16).map(|number| format!("X{number}")).collect();
    let four = |from: usize| format!("g({})", variables[from..from + 4].join(", "));
    let sixteen = format!("g({}, {}, {}, {})", four(0), four(4), four(8), four(12));
    let source = format!(
        "op {}/1 ({}0) op g/4 op a/0 var {}\nrule {sixteen} = {}X15{}\n{}",
        names.join(" "),
        "1 ".repeat(30),
        variables.join(" "),
        "f0(".repeat(63),
        ")".repeat(63),
        "rule a = a\n".repeat(254)
    );
    let named = check::read(&source).unwrap();
    let book = comparison::model::read_book(&named.book).unwrap();
    assert_eq!((book.operators.len(), book.rules.len()), (255, 255));
    assert_eq!(
        (book.rules[0].left.size(), book.rules[0].right.size()),
        (21, 64)
    );
}

/// Books with one fault each, and its number.
fn refused_drafts() -> Vec<(u8, Draft)> {
    let operator = |arity, strategy: Option<&[u8]>| OperatorDraft {
        arity,
        strategy: strategy.map(<[u8]>::to_vec),
    };
    let book = |operator, left: &[Symbol], right: &[Symbol]| {
        Draft::new(
            vec![operator],
            vec![RuleDraft::new(left.into(), right.into())],
        )
    };
    let [f, x, y] = [
        Symbol::Operator(0),
        Symbol::Variable(0),
        Symbol::Variable(1),
    ];
    let list = |items| (3, book(operator(1, Some(items)), &[f, x], &[x]));
    let one = || operator(1, None);
    vec![
        (2, Draft::default()),
        list(&[1, 2, 0]),
        list(&[1]),
        list(&[8, 8, 9, 9, 0]),
        list(&[9, 0]),
        list(&[8, 0]),
        (5, book(one(), &[x], &[x])),
        (7, book(operator(2, None), &[f, x, x], &[y])),
        (7, book(one(), &[f, x], &[y])),
        (8, book(one(), &[f, x], &[&[f; 64][..], &[x]].concat())),
    ]
}

/// The numbers that are told are those that the proved reader gives.
#[test]
fn refusal_numbers_are_the_readers() {
    for (number, draft) in refused_drafts() {
        let refusal = kurvneist::written_book(&draft.encode()).unwrap_err();
        assert_eq!(refusal.number(), number, "{draft:?}");
    }
}

#[test]
fn a_message_shows_the_line_with_a_caret() {
    let text = file("caret.book", "op f/1\nop é/0\n\n\trule f(Müller) = é\n");
    let ran = kurvneist(&["book", &text]);
    let expected = format!(
        "{text}:4:9: 'Müller' is unknown; expected an operator or a variable that is declared\n   \
         4 |  rule f(Müller) = é\n     |         ^^^^^^\n"
    );
    assert_eq!((ran.status, ran.output.as_str()), (3, ""));
    assert_eq!(ran.errors, expected);
}

#[test]
fn many_mistakes_are_cut_short_and_long_lines_too() {
    let rules: String = (0..30).map(|rule| format!("rule a = b{rule}\n")).collect();
    let text = file("many.book", format!("op a/0\n{rules}"));
    let ran = kurvneist(&["book", &text]);
    assert_eq!(ran.errors.matches("is unknown").count(), 20);
    assert!(ran.errors.ends_with("and 10 more\n"), "{}", ran.errors);

    let long = format!(
        "op f/1 op a/0 rule {}b{} = a",
        "f(".repeat(60),
        ")".repeat(60)
    );
    let shown = only(&long).show("x", &long);
    let lines: Vec<&str> = shown.lines().collect();
    let caret = lines[2].find('^').unwrap();
    assert_eq!(&lines[1][caret..=caret], "b");
}

#[test]
fn files_that_are_no_texts_are_told() {
    for (content, told) in [
        (
            &b"op Caf\xe9/0"[..],
            ":1:7: the byte E9 is not UTF-8; expected a text in UTF-8",
        ),
        (
            b"\x03\x02\x52\xc0",
            ":1:4: the byte C0 is not UTF-8; expected a text in UTF-8, or its encoding by an option; a packed book",
        ),
    ] {
        let ran = kurvneist(&["book", &file("bytes.book", content)]);
        assert_eq!(ran.status, 3);
        assert!(ran.errors.contains(told), "{}", ran.errors);
    }
    let ran = kurvneist(&["book", "no such file"]);
    assert_eq!(ran.status, 3);
    assert!(ran.errors.starts_with("no such file: "), "{}", ran.errors);
}

#[test]
fn mistakes_in_a_line() {
    let named = check::read("op end/0 op tick é/1 op both/2 ({1 2} 0)").unwrap();
    for (text, column, message) in [
        ("", 1, "the text ends; expected a term"),
        ("both(end, tik(end))", 11, "'tik' is unknown; expected an operator that is declared, such as 'tick'"),
        ("both(end)", 1, "'both' stands with 1 argument; expected 2"),
        ("both(end, end) end", 16, "found 'end'; expected the end of the line after the term"),
        ("both(end, end", 5, "'(' isn't closed; expected ',' or ')' before the text ends"),
        ("tick(end:1)", 10, "a line has no variables; expected no number behind the name"),
        ("\"ée\u{301}\"", 3, "the string needs the operator 'e', which is not declared; expected a one-argument operator for each character, '_' for a space, and 'end'"),
        ("\"é\u{301}\"", 3, "an accent stands apart from its letter (U+0301); expected letter and accent as one character"),
        ("\"éa\"", 3, "the string needs the operator 'a', which is not declared; expected a one-argument operator for each character, '_' for a space, and 'end'"),
    ] {
        let mistake = line::read(text, &named.names).unwrap_err();
        assert_eq!(mistake.message(), message, "{text}");
        assert_eq!(mistake.place(text), (1, column), "{text}");
    }
    let deep = format!("{}end{}", "tick(".repeat(100_000), ")".repeat(100_000));
    assert_eq!(line::read(&deep, &named.names).unwrap().len(), 100_001);
}
