//! Random texts, and books with the operators that a text's term is made of.

use crate::books::{self, right_side, RuleHabits};
use crate::draft::{Draft, OperatorDraft, RuleDraft, Symbol};
use crate::grow::numbers;
use crate::model::{class, END, GAP, SIDE_LIMIT, TERM_LIMIT};
use crate::random::Random;

/// The longest text that the program takes.
pub const LONGEST_TEXT: usize = 65_535;

/// The class operators: `END`, a letter or digit each for 1 to 41, and `GAP`.
const CLASS_OPERATORS: usize = GAP as usize + 1;

/// A few letters and digits, from which texts and left sides are made: so
/// rules find something to do.
pub fn alphabet(random: &mut Random) -> Vec<u8> {
    let count = random.from_ranges(&[(1, 3), (2, 5), (2, 5), (10, 41)]);
    (0..count).map(|_| any_letter(random)).collect()
}

fn any_letter(random: &mut Random) -> u8 {
    random.between(1, usize::from(GAP) - 1) as u8
}

fn letter(random: &mut Random, alphabet: &[u8]) -> u8 {
    if random.one_in(20) {
        any_letter(random)
    } else {
        *random.pick(alphabet)
    }
}

// ---------------------------------------------------------------------------
// Books

pub fn draft(random: &mut Random, alphabet: &[u8]) -> Draft {
    // Any other book mostly lacks the class operators.
    if random.one_in(25) {
        return books::draft(random);
    }
    let mut draft = Draft::new(operators(random), Vec::new());
    let count = match random.below(12) {
        0 => random.between(100, 255),
        _ => random.from_ranges(&[(0, 3), (1, 6), (1, 6), (4, 15), (10, 30)]),
    };
    let habits = RuleHabits::new(random);
    for _ in 0..count {
        let rule = match random.below(12) {
            0 | 1 => copying_rule(random, &draft, alphabet),
            2 => matching_rule(random, &draft),
            3 | 4 => other_rule(random, &draft, &habits),
            5 | 6 => longer_rule(random, &draft, alphabet, &habits),
            _ => class_rule(random, &draft, alphabet, &habits),
        };
        draft.rules.extend(rule);
    }
    draft
}

/// Arities are spoiled before rules are made, so that those are whole in
/// either case, and the book's own checks let it pass.
fn operators(random: &mut Random) -> Vec<OperatorDraft> {
    let plain = random.one_in(2);
    let mut arities = vec![1; CLASS_OPERATORS];
    arities[usize::from(END)] = 0;
    if random.one_in(8) {
        spoil_arities(random, &mut arities);
    }
    let operators = arities.into_iter().map(|arity| OperatorDraft {
        arity,
        strategy: match plain {
            true => None,
            false => books::strategy(random, arity),
        },
    });
    let mut operators: Vec<OperatorDraft> = operators.collect();
    if operators.len() == CLASS_OPERATORS {
        operators.extend(books::operators(random));
        operators.truncate(255);
    }
    operators
}

fn spoil_arities(random: &mut Random, arities: &mut Vec<u8>) {
    match random.below(4) {
        0 => arities.truncate(CLASS_OPERATORS - 1),
        1 => arities.truncate(random.between(1, CLASS_OPERATORS - 1)),
        2 => arities[usize::from(END)] = random.between(1, 7) as u8,
        _ => {
            let any = any_letter(random);
            let place = *random.pick(&[1, any, any, GAP - 1, GAP]);
            arities[usize::from(place)] = *random.pick(&[0, 2, 7]);
        }
    }
}

/// A rule with a root beyond the class operators, if there is one.
fn other_rule(random: &mut Random, draft: &Draft, habits: &RuleHabits) -> Option<RuleDraft> {
    let others: Vec<u8> = numbers(draft).filter(|&number| number > GAP).collect();
    if others.is_empty() {
        return None;
    }
    let root = *random.pick(&others);
    books::rule(random, draft, root, habits)
}

/// A rule that puts what follows a letter under an operator of several
/// arguments, some of them with a letter before: a text's term has none such,
/// and so nothing that units could share, or that could be equal.
fn copying_rule(random: &mut Random, draft: &Draft, alphabet: &[u8]) -> Option<RuleDraft> {
    let root = Symbol::Operator(letter(random, alphabet));
    let operator = wide_operator(random, draft)?;
    if draft.arity(root) != 1 {
        return None;
    }
    let rest = Symbol::Variable(random.below(16) as u8);
    let mut right = vec![operator];
    for _ in 0..draft.arity(operator) {
        let before = Symbol::Operator(letter(random, alphabet));
        if draft.arity(before) == 1 && random.one_in(4) {
            right.push(before);
        }
        right.push(rest);
    }
    Some(RuleDraft::new(vec![root, rest], right))
}

/// A rule for equal arguments.
fn matching_rule(random: &mut Random, draft: &Draft) -> Option<RuleDraft> {
    let operator = wide_operator(random, draft)?;
    let mut left = vec![operator];
    left.extend((0..draft.arity(operator)).map(|_| Symbol::Variable(random.below(2) as u8)));
    let right = *random.pick(&left[1..]);
    Some(RuleDraft::new(left, vec![right]))
}

/// An operator of several arguments, if there is one.
fn wide_operator(random: &mut Random, draft: &Draft) -> Option<Symbol> {
    let wide: Vec<Symbol> = numbers(draft)
        .map(Symbol::Operator)
        .filter(|&operator| draft.arity(operator) > 1)
        .collect();
    (!wide.is_empty()).then(|| *random.pick(&wide))
}

/// A rule for a few letters in a row. Where arities were spoiled, the row can
/// be incomplete, and there is no such rule.
fn class_rule(
    random: &mut Random,
    draft: &Draft,
    alphabet: &[u8],
    habits: &RuleHabits,
) -> Option<RuleDraft> {
    let mut row: Vec<u8> = (0..random.between(1, 4))
        .map(|_| letter(random, alphabet))
        .collect();
    if random.one_in(4) {
        let place = random.below(row.len());
        row[place] = GAP;
    }
    let last = match random.below(4) {
        0 => Symbol::Operator(END),
        _ => Symbol::Variable(random.below(16) as u8),
    };
    let root = row[0];
    let left: Vec<Symbol> = row
        .into_iter()
        .map(Symbol::Operator)
        .chain([last])
        .collect();
    if draft.part_end(&left, 0) != Some(left.len()) {
        return None;
    }
    let right = right_side(random, draft, root, &left, habits)?;
    Some(RuleDraft::new(left, right))
}

/// A rule for a row that goes on where another's ends, or leaves it before.
fn longer_rule(
    random: &mut Random,
    draft: &Draft,
    alphabet: &[u8],
    habits: &RuleHabits,
) -> Option<RuleDraft> {
    if draft.rules.is_empty() {
        return None;
    }
    let mut left = random.pick(&draft.rules).left.clone();
    left.truncate(random.between(1, left.len()));
    if let Some(Symbol::Variable(_)) = left.last() {
        left.pop();
    }
    let further = random
        .between(0, 3)
        .min(SIDE_LIMIT - 1 - left.len().min(SIDE_LIMIT - 1));
    left.extend((0..further).map(|_| Symbol::Operator(letter(random, alphabet))));
    left.push(Symbol::Variable(random.below(16) as u8));
    let Symbol::Operator(root) = left[0] else {
        return None;
    };
    if left.len() > SIDE_LIMIT || draft.part_end(&left, 0) != Some(left.len()) {
        return None;
    }
    let right = right_side(random, draft, root, &left, habits)?;
    Some(RuleDraft::new(left, right))
}

// ---------------------------------------------------------------------------
// Texts

/// The book's left sides are planted in the text, as they are in lines.
pub fn text(random: &mut Random, alphabet: &[u8], draft: &Draft) -> Vec<u8> {
    let mut text = match random.below(12) {
        0 => {
            let length = random.between(0, 60);
            random.bytes(length)
        }
        1 => separators(random, 3),
        _ => {
            let rows: Vec<Vec<u8>> = draft.rules.iter().map(|rule| row(&rule.left)).collect();
            let length = symbols(random).saturating_sub(1);
            let classes = classes(random, alphabet, &rows, length);
            typed(random, &classes)
        }
    };
    text.truncate(LONGEST_TEXT);
    surrounded(random, text)
}

/// The classes at the front of a left side.
fn row(left: &[Symbol]) -> Vec<u8> {
    let class = |symbol: &Symbol| match symbol {
        Symbol::Operator(number @ 1..=GAP) => Some(*number),
        _ => None,
    };
    left.iter().map_while(class).collect()
}

/// How many symbols the term is to have; often about as many as it may.
fn symbols(random: &mut Random) -> usize {
    match random.below(60) {
        0 => random.between(TERM_LIMIT + 1, 4000),
        1 if random.one_in(4) => LONGEST_TEXT,
        _ => random.from_ranges(&[
            (1, 8),
            (3, 20),
            (3, 20),
            (10, 60),
            (10, 60),
            (60, 300),
            (TERM_LIMIT - 1, TERM_LIMIT + 1),
        ]),
    }
}

/// Classes as a text has them when squeezed: no `GAP` at an end, or beside
/// another one.
pub fn classes(random: &mut Random, alphabet: &[u8], rows: &[Vec<u8>], length: usize) -> Vec<u8> {
    let mut classes = Vec::new();
    while classes.len() < length {
        match random.below(6) {
            0 => classes.push(GAP),
            1 if !rows.is_empty() => classes.extend(random.pick(rows)),
            _ => classes.push(letter(random, alphabet)),
        }
    }
    classes.truncate(length);
    for place in 0..length {
        let at_end = place == 0 || place + 1 == length;
        if classes[place] == GAP && (at_end || classes[place - 1] == GAP) {
            classes[place] = letter(random, alphabet);
        }
    }
    classes
}

/// A text that squeezes to these classes.
pub fn typed(random: &mut Random, classes: &[u8]) -> Vec<u8> {
    let by_class: Vec<Vec<u8>> = (0..GAP).map(|wanted| bytes_of(Some(wanted))).collect();
    let mut text = Vec::new();
    let longest = *random.pick(&[1, 1, 3, 40]);
    for &wanted in classes {
        if wanted == GAP {
            text.push(separator(random));
            text.extend(separators(random, longest));
        } else {
            text.push(*random.pick(&by_class[usize::from(wanted)]));
        }
    }
    text
}

/// All bytes of a class, or all separators.
fn bytes_of(wanted: Option<u8>) -> Vec<u8> {
    (0..=255).filter(|&byte| class(byte) == wanted).collect()
}

fn separator(random: &mut Random) -> u8 {
    match random.below(3) {
        0 => b' ',
        _ => *random.pick(&bytes_of(None)),
    }
}

/// Fewer than `bound`.
fn separators(random: &mut Random, bound: usize) -> Vec<u8> {
    let count = random.below(bound);
    (0..count).map(|_| separator(random)).collect()
}

/// Separators at the ends, seldom up to the longest text.
fn surrounded(random: &mut Random, text: Vec<u8>) -> Vec<u8> {
    let room = LONGEST_TEXT.saturating_sub(text.len());
    let (before, after) = match random.below(100) {
        0 => (room, 0),
        1 => (0, room),
        2 => (room / 2, room - room / 2),
        3..=50 => (random.below(4).min(room), random.below(4).min(room)),
        _ => (0, 0),
    };
    let before = vec![separator(random); before];
    let after = vec![separator(random); after];
    [before, text, after].concat()
}
