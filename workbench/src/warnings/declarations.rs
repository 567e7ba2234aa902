//! Names that nothing uses, and strategies that leave out an argument.

use comparison::draft::Symbol;
use comparison::model::Book;

use crate::mistake::Span;
use crate::text::check::Named;
use crate::text::parser::{Name, Statement, Strategy, Word};
use crate::text::printer::preorder;
use crate::told::quoted;
use crate::warnings::{Kind, Warning};

pub fn warnings(statements: &[Statement], named: &Named, book: &Book) -> Vec<Warning> {
    let mut warnings = Vec::new();
    for statement in statements {
        match statement {
            Statement::Operators {
                names,
                arity,
                strategy,
            } => {
                let unused = names.iter().filter(|name| !is_used(name, named, book));
                warnings.extend(unused.map(unused_operator));
                let given = strategy.as_ref();
                warnings.extend(given.and_then(|given| skipped(given, *arity)));
            }
            Statement::Variables(names) => {
                let unused = names.iter().filter(|name| !stands(name, statements));
                warnings.extend(unused.map(unused_variable));
            }
            // Texts use all letters.
            Statement::Letters(_)
            | Statement::Rule { .. }
            | Statement::From { .. }
            | Statement::Unclear(_) => {}
        }
    }
    warnings
}

fn is_used(name: &Name, named: &Named, book: &Book) -> bool {
    let number = named.names.number(&name.text);
    let symbol = number.map(Symbol::Operator);
    let sides = book.rules.iter().flat_map(|rule| [&rule.left, &rule.right]);
    let mut symbols = sides.flat_map(preorder);
    symbols.any(|used| Some(used) == symbol)
}

fn unused_operator(name: &Name) -> Warning {
    let wrong = format!("no rule names {}", quoted(&name.text));
    let expected = "a rule that does, unless lines name it";
    Warning::new(Kind::UnusedOperator, name.span, wrong, expected)
}

/// Whether a variable stands in a left side. A character of a string is none,
/// but what ends a string may be one.
fn stands(name: &Name, statements: &[Statement]) -> bool {
    let is = |word: &Word| word.name.text == name.text && !(word.spelled && word.arguments > 0);
    statements.iter().any(|statement| match statement {
        Statement::Rule { left, .. } => left.iter().any(is),
        _ => false,
    })
}

fn unused_variable(name: &Name) -> Warning {
    let wrong = format!("no rule names the variable {}", quoted(&name.text));
    let expected = "a rule that does, or no declaration";
    Warning::new(Kind::UnusedVariable, name.span, wrong, expected)
}

fn skipped(given: &Strategy, arity: u8) -> Option<Warning> {
    let mentioned = |argument: &u8| given.items.iter().any(|(item, _)| item == argument);
    let skipped: Vec<u8> = (1..=arity)
        .filter(|argument| !mentioned(argument))
        .collect();
    if skipped.is_empty() {
        return None;
    }
    let start = given.items.first().map_or(given.close, |(_, span)| *span);
    let wrong = format!("the strategy leaves out {}", listed(&skipped));
    let expected = "all arguments, unless what stands there is to stay as it is";
    let span = Span::new(start.start, given.close.start.max(start.end));
    Some(Warning::new(Kind::SkippedArgument, span, wrong, expected))
}

/// "argument 2", "arguments 1, 2 and 3"
fn listed(arguments: &[u8]) -> String {
    let words: Vec<String> = arguments.iter().map(u8::to_string).collect();
    match words.split_last() {
        Some((last, [])) => format!("argument {last}"),
        Some((last, before)) => format!("arguments {} and {last}", before.join(", ")),
        None => String::new(),
    }
}
