//! Faults put into a case, so that every refusal is due now and then.

use crate::draft::{Case, Damage, Draft, RuleDraft, Symbol};
use crate::grow::{split_operators, Place};
use crate::model::{squeezed, Form, OUTPUT_LEN, SIDE_LIMIT, TERM_LIMIT};
use crate::random::Random;
use crate::texts;

/// Puts in one fault; by chance it may change nothing that is refused.
pub fn spoil(random: &mut Random, case: &mut Case) {
    match random.below(16) {
        0 => case.units = *random.pick(&[0, 9, 10, 255]),
        1 => spoil_areas(random, case),
        2 => spoil_output(random, case),
        3 | 4 => spoil_schedule(random, case),
        5..=7 => match case.form {
            Form::Line => {
                let count = case.draft.operators.len();
                spoil_line(random, &mut case.line, count)
            }
            Form::Text => spoil_text(random, &mut case.line),
        },
        8 | 9 => spoil_operators(random, &mut case.draft),
        10..=13 => spoil_rules(random, &mut case.draft),
        _ => {
            let damage = damage(random, case.book().len());
            case.damage.extend(damage);
        }
    }
}

/// One of the areas, or both.
pub fn spoil_areas(random: &mut Random, case: &mut Case) {
    let offsets = [-1, -1, -100, isize::MIN, 1, 100];
    let which = random.below(3);
    if which != 1 {
        case.work_offset = *random.pick(&offsets);
    }
    if which != 0 {
        case.net_offset = *random.pick(&offsets);
    }
}

pub fn spoil_output(random: &mut Random, case: &mut Case) {
    case.output_len = *random.pick(&[OUTPUT_LEN - 1, OUTPUT_LEN - 1, 0, OUTPUT_LEN + 1, 3000]);
}

fn spoil_schedule(random: &mut Random, case: &mut Case) {
    let unit = *random.pick(&[case.units, case.units, case.units.saturating_add(1), 255]);
    let place = match random.below(3) {
        0 => case.schedule.len(),
        _ => random.below(case.schedule.len() + 1),
    };
    case.schedule.insert(place, unit);
}

/// The line of a book with so many operators.
pub fn spoil_line(random: &mut Random, line: &mut Vec<u8>, count: usize) {
    let count = count.max(1);
    match random.below(8) {
        0 => line.clear(),
        1 => line.truncate(random.below(line.len() + 1)),
        2 => line.extend((0..random.between(1, 3)).map(|_| random.below(count) as u8)),
        3 => line.push(random.byte()),
        4 | 5 if !line.is_empty() => {
            let place = random.below(line.len());
            line[place] = random.between(count.min(255), 255) as u8;
        }
        6 => *line = random.bytes(TERM_LIMIT + 1),
        7 => {
            let filler = random.below(count) as u8;
            line.resize(random.between(TERM_LIMIT, TERM_LIMIT + 2), filler);
        }
        _ => *line = random.bytes(2),
    }
}

/// A text is refused for its length only, and only once it is squeezed.
pub fn spoil_text(random: &mut Random, text: &mut Vec<u8>) {
    match random.below(6) {
        0 => text.clear(),
        1 => text.push(random.byte()),
        2 => {
            let more = random.between(1000, 5000);
            text.extend(random.bytes(more));
        }
        _ => {
            let symbols = random.between(TERM_LIMIT, TERM_LIMIT + 2);
            lengthen(random, text, symbols);
        }
    }
}

/// Letters behind the text, up to so many symbols of its term. Where it ends
/// in separators, these become a symbol too.
fn lengthen(random: &mut Random, text: &mut Vec<u8>, symbols: usize) {
    while squeezed(text).len() + 1 < symbols {
        let lacking = symbols - squeezed(text).len() - 1;
        let classes = texts::classes(random, &[1], &[], lacking.div_ceil(2));
        text.extend(texts::typed(random, &classes));
    }
}

fn spoil_operators(random: &mut Random, draft: &mut Draft) {
    if draft.operators.is_empty() || random.one_in(6) {
        draft.operators.clear();
        return;
    }
    let place = random.below(draft.operators.len());
    match (&mut draft.operators[place].strategy, random.below(3)) {
        (Some(items), 0) if !items.is_empty() => {
            let place = random.below(items.len());
            items[place] = random.between(0, 15) as u8;
        }
        (Some(items), 1) => {
            items.pop();
        }
        (strategy, _) => {
            let length = random.from_ranges(&[(1, 3), (1, 8), (31, 31)]);
            *strategy = Some((0..length).map(|_| any_item(random)).collect());
        }
    }
}

fn any_item(random: &mut Random) -> u8 {
    match random.below(12) {
        0 => random.between(10, 15) as u8,
        1 | 2 => 0,
        _ => random.between(0, 9) as u8,
    }
}

fn spoil_rules(random: &mut Random, draft: &mut Draft) {
    if draft.rules.is_empty() {
        return;
    }
    // Often the last one, where bits run out soon after.
    let place = match random.below(3) {
        0 => draft.rules.len() - 1,
        _ => random.below(draft.rules.len()),
    };
    let mut rule = draft.rules[place].clone();
    match random.below(7) {
        0 => *some_symbol(random, &mut rule) = unknown_operator(random, draft),
        1 => rule.left = vec![Symbol::Variable(random.below(16) as u8)],
        2 | 3 => *any_symbol(random, &mut rule.right) = Symbol::Variable(random.below(16) as u8),
        4 => {
            some_side(random, &mut rule).pop();
        }
        _ => *some_side(random, &mut rule) = long_side(random, draft),
    }
    draft.rules[place] = rule;
}

fn some_side<'a>(random: &mut Random, rule: &'a mut RuleDraft) -> &'a mut Vec<Symbol> {
    if random.one_in(2) {
        &mut rule.left
    } else {
        &mut rule.right
    }
}

fn some_symbol<'a>(random: &mut Random, rule: &'a mut RuleDraft) -> &'a mut Symbol {
    let side = some_side(random, rule);
    any_symbol(random, side)
}

/// An earlier fault can have left the side empty.
fn any_symbol<'a>(random: &mut Random, side: &'a mut Vec<Symbol>) -> &'a mut Symbol {
    if side.is_empty() {
        side.push(Symbol::Operator(0));
    }
    let place = random.below(side.len());
    &mut side[place]
}

fn unknown_operator(random: &mut Random, draft: &Draft) -> Symbol {
    Symbol::Operator(random.between(draft.operators.len().min(255), 255) as u8)
}

/// A side near the limit: a chain of one operator, closed or left incomplete,
/// and sometimes with a fault in the last symbol that a side may have.
fn long_side(random: &mut Random, draft: &Draft) -> Vec<Symbol> {
    let (branches, constants) = split_operators(draft, |_| true);
    if branches.is_empty() {
        return vec![Symbol::Operator(0)];
    }
    let Place::Is(chain) = random.pick(&branches)[0] else {
        unreachable!("a branch starts with its operator")
    };
    let length = random.from_ranges(&[(SIDE_LIMIT - 2, SIDE_LIMIT + 1), (SIDE_LIMIT, SIDE_LIMIT)]);
    let mut side = vec![chain; length];
    if let (Some(leaf), false) = (constants.first(), random.one_in(3)) {
        side.push(*leaf);
    }
    if side.len() >= SIDE_LIMIT && random.one_in(4) {
        let faulty = [unknown_operator(random, draft), Symbol::Variable(3)];
        side[SIDE_LIMIT - 1] = *random.pick(&faulty);
    }
    side
}

fn damage(random: &mut Random, length: usize) -> Vec<Damage> {
    match random.below(6) {
        0 => {
            let flips = random.between(1, 4);
            (0..flips)
                .map(|_| Damage::Flip(random.below(length * 8 + 1)))
                .collect()
        }
        1 => vec![Damage::Flip(random.below(8))],
        2 => vec![Damage::Cut(random.from_ranges(&[
            (1, 1),
            (1, 4),
            (1, length + 1),
        ]))],
        3 => vec![Damage::Add(0)],
        4 => vec![Damage::Add(random.byte())],
        _ => vec![Damage::Replace(short_book(random))],
    }
}

/// Bytes that mostly announce few operators, so that more fields are met.
fn short_book(random: &mut Random) -> Vec<u8> {
    let length = random.between(0, 14);
    let mut bytes = random.bytes(length);
    if let Some(count) = bytes.first_mut() {
        *count %= 4;
    }
    bytes
}
