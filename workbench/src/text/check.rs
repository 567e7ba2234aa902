//! Statements as a book: names looked up, the layout's limits and the
//! reader's conditions checked where a place can be told. The proved writer
//! has the last word on the packed bytes.

use std::collections::HashMap;

use comparison::draft::{Draft, OperatorDraft, Symbol};

use crate::letters;
use crate::mistake::{place_from, place_of, Mistake, Span};
use crate::names::Names;
use crate::text::lexer::is_name_character;
use crate::text::parser::{meant_letters, parse, Name, Statement, Strategy, Word, Words};
use crate::text::sides::{self, Meaning, Meanings};
use crate::told::quoted;

/// A book with the names that it was written with.
#[derive(Clone, Debug)]
pub struct Named {
    /// The settled book, as the proved writer wrote it.
    pub book: Vec<u8>,
    pub names: Names,
    /// The line of each rule in the text; none for a packed book.
    pub rule_lines: Vec<usize>,
    /// The day of each rule, if the book is dated.
    pub days: Option<Vec<u16>>,
}

/// Reads a text; answers the book, or all mistakes in the order of the text.
pub fn read(source: &str) -> Result<Named, Vec<Mistake>> {
    let (statements, mut mistakes) = parse(source);
    let mut reader = Reader::default();
    for statement in &statements {
        reader.declare(source, statement, &mut mistakes);
    }
    for statement in &statements {
        if let Statement::Unclear(names) = statement {
            reader.declare_unclear(names);
        }
    }
    let mut day = 0;
    for statement in &statements {
        if let Statement::From { day: next, .. } = statement {
            day = *next;
            reader.draft.dated = true;
        }
        if let Statement::Rule { left, right, .. } = statement {
            let [left, right] = [left, right].map(|side| reader.with_letters(side));
            match sides::rule(&mut reader.meanings, &left, &right) {
                Ok(rule) => {
                    reader.names.add_rule(variables(&left, &rule.left));
                    reader.draft.rules.push(rule.on(day));
                }
                Err(mistake) => mistakes.push(mistake),
            }
        }
    }
    if mistakes.is_empty() {
        mistakes.extend(without_day(&statements));
    }
    if reader.operators == 0 && mistakes.is_empty() {
        let start = Span::new(0, 0);
        let no_operator = Mistake::new(start, "the book has no operator", "'op NAME/ARITY'");
        mistakes.push(no_operator.refused(2));
    }
    if mistakes.is_empty() {
        return reader.packed(source);
    }
    mistakes.sort_by_key(|mistake| mistake.span.start);
    Err(mistakes)
}

/// The first rule that stands before any `from` of a dated book. It is not
/// taken to be of day 0: rules replace each other in a dated book and not in an
/// undated one, so who dates a book has to say it of all.
fn without_day(statements: &[Statement]) -> Option<Mistake> {
    let is_from = |statement: &Statement| matches!(statement, Statement::From { .. });
    let first = statements.iter().position(is_from)?;
    let mut before = statements[..first].iter();
    before.find_map(|statement| match statement {
        Statement::Rule { keyword, .. } => {
            let wrong = "this rule has no day, and others have";
            let expected = "'from' and a day before it; 'from 0' if it holds ever since";
            Some(Mistake::new(*keyword, wrong, expected))
        }
        _ => None,
    })
}

/// What a left side calls its variables, by their numbers.
fn variables(words: &Words, symbols: &[Symbol]) -> HashMap<u8, String> {
    let name = |(word, symbol): (&Word, &Symbol)| match symbol {
        Symbol::Variable(number) => Some((*number, word.name.text.clone())),
        Symbol::Operator(_) => None,
    };
    words.iter().zip(symbols).filter_map(name).collect()
}

#[derive(Default)]
struct Reader {
    meanings: Meanings,
    names: Names,
    draft: Draft,
    operators: usize,
    /// Where each rule begins.
    rules: Vec<usize>,
}

impl Reader {
    fn declare(&mut self, source: &str, statement: &Statement, mistakes: &mut Vec<Mistake>) {
        match statement {
            Statement::Letters(span) => {
                mistakes.extend(self.letters(source, *span).err());
            }
            Statement::Operators {
                names,
                arity,
                strategy,
            } => {
                let checked = match strategy {
                    Some(given) => strategy_items(source, given, *arity).map(Some),
                    None => Ok(None),
                };
                for name in names {
                    let items = checked.as_ref().ok().cloned().flatten();
                    mistakes.extend(self.operator(source, name, *arity, items).err());
                }
                mistakes.extend(checked.err());
            }
            Statement::Variables(names) => {
                for name in names {
                    let added = self.add_name(source, name, Meaning::Variable);
                    mistakes.extend(added.err());
                }
            }
            Statement::Rule { keyword, .. } => {
                self.rules.push(keyword.start);
                if self.rules.len() == 256 {
                    let wrong = "this is the 256th rule";
                    mistakes.push(Mistake::new(*keyword, wrong, "at most 255 rules"));
                }
            }
            Statement::From { .. } | Statement::Unclear(_) => {}
        }
    }

    /// Texts take operators 0 to 42, so the letters come first.
    fn letters(&mut self, source: &str, span: Span) -> Result<(), Mistake> {
        if self.operators > 0 {
            self.declare_unclear(&meant_letters(letters::KEYWORD, span));
            let wrong = "'op letters' stands behind another operator";
            let expected = "it before all others: texts take operators 0 to 42";
            return Err(Mistake::new(span, wrong, expected));
        }
        let names = meant_letters(letters::KEYWORD, span);
        let mut declared = names.iter().zip(letters::declared());
        let done =
            declared.try_for_each(|(name, (_, arity))| self.operator(source, name, arity, None));
        self.declare_unclear(&names);
        done
    }

    /// Whether a character of a string may be a letter. Where the letters are
    /// mistaken, nothing is said about characters too.
    fn has_letters(&self) -> bool {
        let mut declared = (0..).zip(letters::declared());
        declared.all(|(due, (name, due_arity))| match self.meanings.get(name) {
            Some((Meaning::Operator { number, arity }, _)) => (*number, *arity) == (due, due_arity),
            Some((Meaning::Unclear, _)) => true,
            Some((Meaning::Variable, _)) | None => false,
        })
    }

    /// A side's words, with letters for the characters that no operator is
    /// named by.
    fn with_letters(&self, side: &Words) -> Words {
        let mut side = side.clone();
        if self.has_letters() {
            for word in &mut side {
                word.to_letter(|name| match self.meanings.get(name) {
                    None | Some((Meaning::Variable, _)) => false,
                    Some((Meaning::Operator { .. } | Meaning::Unclear, _)) => true,
                });
            }
        }
        side
    }

    fn operator(
        &mut self,
        source: &str,
        name: &Name,
        arity: u8,
        strategy: Option<Vec<u8>>,
    ) -> Result<(), Mistake> {
        let meaning = match u8::try_from(self.operators) {
            Ok(number) if number < 255 => Meaning::Operator { number, arity },
            _ => Meaning::Unclear,
        };
        self.add_name(source, name, meaning)?;
        if arity != 1 && !name.text.chars().all(is_name_character) {
            let wrong = format!("{} can stand in strings only", quoted(&name.text));
            return Err(Mistake::new(name.span, wrong, "arity 1 for it"));
        }
        self.operators += 1;
        if self.operators == 256 {
            let wrong = "this is the 256th operator";
            return Err(Mistake::new(name.span, wrong, "at most 255 operators"));
        }
        if self.operators < 256 {
            self.names.add(&name.text, arity);
            self.draft.operators.push(OperatorDraft { arity, strategy });
        }
        Ok(())
    }

    /// Only names that nothing else declares are unclear.
    fn declare_unclear(&mut self, names: &[Name]) {
        for name in names {
            self.meanings
                .entry(name.text.clone())
                .or_insert((Meaning::Unclear, name.span));
        }
    }

    fn add_name(&mut self, source: &str, name: &Name, meaning: Meaning) -> Result<(), Mistake> {
        if let Some((before, first)) = self.meanings.get_mut(&name.text) {
            *before = Meaning::Unclear;
            let (line, _) = place_of(source, first.start);
            let name_told = quoted(&name.text);
            let wrong = format!("{name_told} is declared already on line {line}");
            return Err(Mistake::new(name.span, wrong, "a new name"));
        }
        self.meanings
            .insert(name.text.clone(), (meaning, name.span));
        Ok(())
    }

    fn packed(self, source: &str) -> Result<Named, Vec<Mistake>> {
        let line = |start: &usize| place_of(source, *start).0;
        let days = self.draft.rules.iter().map(|rule| rule.day);
        let days = self.draft.dated.then(|| days.collect());
        match kurvneist::written_book(&self.draft.encode()) {
            Ok(book) => Ok(Named {
                book,
                names: self.names,
                rule_lines: self.rules.iter().map(line).collect(),
                days,
            }),
            Err(refusal) => {
                let wrong = format!("the book's reader refuses the book: {refusal}");
                let mistake = Mistake::new(Span::new(0, 0), wrong, "a book that it reads");
                Err(vec![mistake.refused(refusal.number())])
            }
        }
    }
}

/// What the reader refuses by 3, and a list too long for its 5-bit length.
fn strategy_items(source: &str, given: &Strategy, arity: u8) -> Result<Vec<u8>, Mistake> {
    if let Some(mistake) = unclosed_group(source, given) {
        return Err(mistake);
    }
    let mut in_group = false;
    for (place, &(item, span)) in given.items.iter().enumerate() {
        if place == 31 {
            let wrong = "the strategy has over 31 items";
            let expected = "at most 31, counting each '{' and '}'";
            return Err(Mistake::new(span, wrong, expected));
        }
        let fault = match item {
            0 if in_group => Some(("'0' stands in a group", "arguments, then '}'".into())),
            8 if in_group => Some(("a group opens in a group", "arguments, then '}'".into())),
            9 if !in_group => Some(("no group is open here", "'{' before it".into())),
            1..=7 if item > arity => Some(("there is no such argument", due_arguments(arity))),
            _ => None,
        };
        if let Some((wrong, expected)) = fault {
            return Err(Mistake::new(span, wrong, expected).refused(3));
        }
        in_group = item == 8 || in_group && item != 9;
    }
    match given.items.last() {
        Some((item, _)) if *item != 0 => {
            let wrong = "the strategy's last item is not '0'";
            Err(Mistake::new(given.close, wrong, "'0' before it").refused(3))
        }
        _ => Ok(given.items.iter().map(|item| item.0).collect()),
    }
}

/// A group without its '}' is told where it was opened. One that another '{'
/// or '0' stands in, and that is closed behind them, is another mistake.
fn unclosed_group(source: &str, given: &Strategy) -> Option<Mistake> {
    let mut open: Vec<Span> = Vec::new();
    for (place, &(item, span)) in given.items.iter().enumerate() {
        match item {
            8 => open.push(span),
            9 => drop(open.pop()),
            0 if !open.is_empty() && !is_closed(&given.items[place..], open.len()) => {
                return Some(group_before(source, open[0], span, "'0'"));
            }
            _ => {}
        }
    }
    let first = open.first()?;
    Some(group_before(source, *first, given.close, "')'"))
}

/// Whether so many groups are closed behind here before the next is opened.
fn is_closed(items: &[(u8, Span)], groups: usize) -> bool {
    let closing = items.iter().take_while(|item| item.0 != 8);
    closing.filter(|item| item.0 == 9).count() >= groups
}

fn group_before(source: &str, open: Span, end: Span, what: &str) -> Mistake {
    let place = place_from(source, open.start, end.start);
    let expected = format!("'}}' before {what} {place}");
    Mistake::new(open, "the group isn't closed", expected).refused(3)
}

fn due_arguments(arity: u8) -> String {
    match arity {
        0 => "no argument's number, the arity being 0".into(),
        _ => format!("an argument from 1 to {arity}"),
    }
}
