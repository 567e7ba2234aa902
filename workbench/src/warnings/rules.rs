//! Rules that never rewrite, and those that rewrite a term to itself.

use comparison::draft::Symbol;
use comparison::model::{Book, Item, Pattern, Rule};

use crate::text::check::Named;
use crate::text::parser::{Statement, Words};
use crate::text::printer;
use crate::told::quoted;
use crate::trace::text::rule_name;
use crate::warnings::patterns::{cover_together, covers, rewritten_before};
use crate::warnings::{side_span, Kind, Warning};

/// On the rules that stand in the book, each with its place in the text's book.
pub fn warnings(
    source: &str,
    statements: &[Statement],
    named: &Named,
    book: &Book,
) -> Vec<(usize, Warning)> {
    let sides = sides(statements);
    let mut warnings = Vec::new();
    for (number, rule) in book.rules.iter().enumerate() {
        let (left, right) = sides[rule.place];
        let look = Look {
            source,
            named,
            book,
            number,
            left,
        };
        let never = look.never_rewrites();
        warnings.extend(never.map(|warning| (rule.place, warning)));
        if rule.left == rule.right {
            let expected = "another: once the rule rewrites, it does so until the budget is spent";
            let wrong = "the right side is the left side";
            let span = side_span(source, right);
            let warning = Warning::new(Kind::SameSides, span, wrong, expected);
            warnings.push((rule.place, warning));
        }
    }
    warnings
}

/// The sides of all rules of a text.
pub fn sides(statements: &[Statement]) -> Vec<(&Words, &Words)> {
    let sides = statements.iter().filter_map(|statement| match statement {
        Statement::Rule { left, right, .. } => Some((left, right)),
        _ => None,
    });
    sides.collect()
}

/// Rules of a dated book that stand on no day: another of their own day with
/// the same left side comes behind them.
pub fn replaced(
    source: &str,
    statements: &[Statement],
    named: &Named,
    book: &Book,
    days: &[u16],
) -> Vec<(usize, Warning)> {
    let sides = sides(statements);
    let mut warnings = Vec::new();
    for (place, rule) in book.rules.iter().enumerate() {
        let is_same = |other: &usize| {
            days[*other] == days[place] && book.rules[*other].left.agrees(&rule.left)
        };
        if let Some(other) = (place + 1..book.rules.len()).rfind(is_same) {
            let name = rule_name(other + 1, &named.rule_lines);
            let wrong = format!("the left side is that of {name}, the last of this day");
            let expected = "each left side once a day: this rule stands on no day";
            let span = side_span(source, sides[place].0);
            let warning = Warning::new(Kind::Replaced, span, wrong, expected);
            warnings.push((place, warning));
        }
    }
    warnings
}

/// One rule, and what is around it.
struct Look<'a> {
    source: &'a str,
    named: &'a Named,
    book: &'a Book,
    /// Among the rules that stand, counted from 0.
    number: usize,
    left: &'a Words,
}

impl Look<'_> {
    /// The first reason why the rule never rewrites.
    fn never_rewrites(&self) -> Option<Warning> {
        self.never_tried()
            .or_else(|| self.equal_left())
            .or_else(|| self.never_first())
            .or_else(|| self.rewritten_before())
    }

    fn rule(&self) -> &Rule {
        &self.book.rules[self.number]
    }

    /// What a rule that stands, counted from 0, is called.
    fn name(&self, number: usize) -> String {
        let place = self.book.rules[number].place;
        rule_name(place + 1, &self.named.rule_lines)
    }

    fn earlier(&self) -> &[Rule] {
        &self.book.rules[..self.number]
    }

    fn at_left(&self, kind: Kind, wrong: String, expected: &str) -> Option<Warning> {
        let span = side_span(self.source, self.left);
        Some(Warning::new(kind, span, wrong, expected))
    }

    fn never_tried(&self) -> Option<Warning> {
        let Pattern::Operator(operator, _) = &self.rule().left else {
            return None;
        };
        let strategy = &self.book.operators[usize::from(*operator)].strategy;
        if strategy.contains(&Item::Whole) {
            return None;
        }
        let name = quoted(self.named.names.name(*operator));
        let wrong = format!("the strategy of {name} has no 0, so that this rule is never tried");
        self.at_left(Kind::NeverTried, wrong, "a strategy that ends in 0")
    }

    fn equal_left(&self) -> Option<Warning> {
        let (left, right) = in_order(self.rule());
        let mut earlier = self.earlier().iter().map(in_order);
        let other = earlier.position(|(other, _)| other == left)?;
        let name = self.name(other);
        let wrong = match in_order(&self.book.rules[other]).1 == right {
            true => format!("this is {name} again"),
            false => format!("the left side is that of {name}, which comes first"),
        };
        let expected = "each left side once: this rule never rewrites";
        self.at_left(Kind::EqualLeft, wrong, expected)
    }

    fn never_first(&self) -> Option<Warning> {
        let left = &self.rule().left;
        let earlier: Vec<&Pattern> = self.earlier().iter().map(|rule| &rule.left).collect();
        if let Some(other) = earlier.iter().position(|other| covers(other, left)) {
            let name = self.name(other);
            let wrong = format!("{name} comes first and matches all that this rule matches");
            return self.at_left(Kind::NeverFirst, wrong, "this rule before it");
        }
        if !cover_together(self.book, &earlier, left) {
            return None;
        }
        let wrong = "the rules before this one together match all that it matches".into();
        self.at_left(Kind::NeverFirst, wrong, "this rule before one of them")
    }

    fn rewritten_before(&self) -> Option<Warning> {
        let (place, part, rule) = rewritten_before(self.book, &self.rule().left)?;
        let part = printer::pattern(self.rule().place, part, &self.named.names);
        let name = self.name(rule);
        let wrong = format!("{name} rewrites the part {part} before this rule is tried");
        let expected = "the part as the other rules leave it: this rule never rewrites";
        let span = self.left[place].name.span;
        Some(Warning::new(Kind::RewrittenBefore, span, wrong, expected))
    }
}

/// The sides with their variables numbered as they come on the left.
fn in_order(rule: &Rule) -> (Vec<Symbol>, Vec<Symbol>) {
    let left = printer::preorder(&rule.left);
    let variables = printer::variables(&left);
    let renamed = |symbol: Symbol| match symbol {
        Symbol::Operator(_) => symbol,
        Symbol::Variable(number) => {
            let place = variables.iter().position(|variable| *variable == number);
            Symbol::Variable(place.expect("the left side has each variable") as u8)
        }
    };
    let right = printer::preorder(&rule.right);
    let [left, right] = [left, right].map(|side| side.into_iter().map(renamed).collect());
    (left, right)
}
