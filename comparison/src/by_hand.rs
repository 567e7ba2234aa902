//! Points by hand: some that meet every rule, and for each rule some that break
//! it alone.

use crate::draft::{Draft, OperatorDraft, RuleDraft, Symbol};
use crate::point_rules::Rule;
use crate::slots::{Point, Saved, SavedFrame, SavedUnit, BOOK_AT, SLOT_LEN};

/// Operators 0 a, 1 g/1, 2 pair/2 ({1 2} 0), 3 triple/3 ({1 2 3} 0), 4 late/2
/// (0 {1 2} 0). The steps of pair are FORK 1, VISIT 2, JOIN and WHOLE.
pub fn book() -> Vec<u8> {
    let operator = |arity: u8, strategy: Option<&[u8]>| OperatorDraft {
        arity,
        strategy: strategy.map(<[u8]>::to_vec),
    };
    let operators = vec![
        operator(0, None),
        operator(1, None),
        operator(2, Some(&[8, 1, 2, 9, 0])),
        operator(3, Some(&[8, 1, 2, 3, 9, 0])),
        operator(2, Some(&[0, 8, 1, 2, 9, 0])),
    ];
    let (g, pair, x) = (
        Symbol::Operator(1),
        Symbol::Operator(2),
        Symbol::Variable(0),
    );
    let rule = RuleDraft::new(vec![g, g, x], vec![pair, x, x]);
    Draft::new(operators, vec![rule]).encode()
}

fn job(offset: u16, next: u8, count: u8) -> SavedFrame {
    SavedFrame::Job {
        offset,
        next,
        count,
    }
}

fn exit(unit: u8, index: u16) -> SavedFrame {
    SavedFrame::Exit { unit, index }
}

const SLEEP: SavedFrame = SavedFrame::Sleep;
const BINGO: SavedFrame = SavedFrame::Bingo;

/// Units by their ranks and frames, the lowest frame first; the order of
/// placing, the latest first.
fn point(symbols: &[u8], units: &[(u8, &[SavedFrame])], placed: &[u8]) -> Point {
    let units = units.iter().map(|(rank, frames)| SavedUnit {
        rank: *rank,
        frames: frames.iter().rev().copied().collect(),
    });
    Point {
        name: b"by hand".to_vec(),
        book: book(),
        day: 0,
        saved: Saved {
            budget: 9,
            rewrites: 0,
            entries: 0,
            granted: 0,
            kept: 0,
            symbols: symbols.to_vec(),
            marks: vec![false; symbols.len()],
            units: units.collect(),
            placed: placed.to_vec(),
        },
    }
}

fn with(mut point: Point, change: impl FnOnce(&mut Saved)) -> Point {
    change(&mut point.saved);
    point
}

/// Busy units with these frames on pair(a, a).
fn pair(first: &[SavedFrame], second: &[SavedFrame], placed: &[u8]) -> Point {
    point(&[2, 0, 0], &[(0, first), (0, second)], placed)
}

/// The same on triple(a, a, a).
fn triple(first: &[SavedFrame], second: &[SavedFrame], placed: &[u8]) -> Point {
    point(&[3, 0, 0, 0], &[(0, first), (0, second)], placed)
}

/// One busy unit on g(g(a)).
fn alone(frames: &[SavedFrame]) -> Point {
    point(&[1, 1, 0], &[(0, frames)], &[])
}

/// pair(a, a), of which unit 1 has the first argument, and unit 0 is at the
/// second.
pub fn lent() -> Point {
    in_part(job(1, 0, 0))
}

/// The same with another frame on the part's EXIT.
fn in_part(frame: SavedFrame) -> Point {
    pair(&[BINGO, job(0, 2, 1)], &[SLEEP, exit(0, 1), frame], &[1])
}

/// pair(pair(a, a), a): unit 1 has the inner pair, of which unit 2 has the
/// first argument.
fn lent_twice() -> Point {
    point(
        &[2, 2, 0, 0, 0],
        &[
            (0, &[BINGO, job(0, 2, 1)]),
            (0, &[SLEEP, exit(0, 1), job(1, 2, 1)]),
            (0, &[SLEEP, exit(1, 2), job(2, 0, 0)]),
        ],
        &[2, 1],
    )
}

/// Units of these ranks asleep beside the one that begins.
pub fn asleep(first: u8, second: u8) -> Point {
    point(
        &[0],
        &[
            (0, &[BINGO, job(0, 0, 0)]),
            (first, &[SLEEP]),
            (second, &[SLEEP]),
        ],
        &[],
    )
}

/// late(a, a), whose first order is a WHOLE.
fn late(count: u8) -> Point {
    point(&[4, 0, 0], &[(0, &[BINGO, job(0, 1, count)])], &[])
}

/// Points that meet every rule; those with marks, and some others, no run
/// saves.
pub fn meeting() -> Vec<Point> {
    vec![
        lent(),
        lent_twice(),
        late(1),
        asleep(1, 2),
        asleep(2, 1),
        // A unit with SLEEP on top becomes idle only when that is carried out.
        asleep(0, 1),
        asleep(0, 0),
        // False marks.
        with(lent(), |saved| saved.marks = vec![true, false, true]),
        with(lent_twice(), |saved| saved.marks = vec![true; 5]),
        // A part that is done, and one that is in work.
        point(
            &[3, 0, 0, 0],
            &[
                (1, &[BINGO, job(0, 4, 2)]),
                (0, &[SLEEP, exit(0, 1)]),
                (0, &[SLEEP, exit(0, 1), job(3, 1, 0)]),
            ],
            &[1, 2],
        ),
        // A unit at its JOIN has taken a part of the unit that has its own.
        point(
            &[2, 2, 2, 0, 0, 0, 0],
            &[
                (0, &[BINGO, job(0, 3, 1), exit(1, 2)]),
                (0, &[SLEEP, exit(0, 1), job(1, 2, 1)]),
            ],
            &[0, 1],
        ),
        alone(&[BINGO, job(0, 2, 0), job(1, 2, 0), job(2, 1, 0)]),
        alone(&[BINGO]),
    ]
}

/// What is wrong, and the point.
type Wrong = (&'static str, Point);

/// For each rule of runs, points that break it and no other.
pub fn breaking() -> Vec<(Rule, Wrong)> {
    let lists: [(Rule, Vec<Wrong>); 13] = [
        (Rule::Known, known()),
        (Rule::Complete, complete()),
        (Rule::Within, within()),
        (Rule::Job, jobs()),
        (Rule::Distinct, distinct()),
        (Rule::Stacks, [ends(), bearers(), arguments()].concat()),
        (Rule::Exits, exits()),
        (Rule::Counts, counts()),
        (Rule::Room, room()),
        (Rule::Many, many()),
        (Rule::Earlier, earlier()),
        (Rule::Ranked, ranked()),
        (Rule::Idle, idle()),
    ];
    let each = lists.into_iter();
    each.flat_map(|(rule, wrong)| wrong.into_iter().map(move |wrong| (rule, wrong)))
        .collect()
}

fn known() -> Vec<Wrong> {
    let unknown = with(lent(), |saved| saved.symbols[2] = 200);
    vec![("an operator that the book has not", unknown)]
}

fn complete() -> Vec<Wrong> {
    let lacking = with(lent(), |saved| saved.symbols[2] = 1);
    let left_over = with(lent(), |saved| {
        saved.symbols.push(0);
        saved.marks.push(false);
    });
    vec![
        ("an argument is lacking", lacking),
        ("a symbol is left over", left_over),
    ]
}

fn within() -> Vec<Wrong> {
    let made = |rewrites: u64| with(lent(), |saved| saved.rewrites = rewrites);
    vec![
        ("one rewrite too many", made(10)),
        ("as many as 64 bits hold", made(u64::MAX)),
    ]
}

fn jobs() -> Vec<Wrong> {
    let twice_awaited = point(
        &[2, 0, 0],
        &[
            (0, &[BINGO, job(0, 3, 2)]),
            (0, &[SLEEP, exit(0, 1)]),
            (0, &[SLEEP, exit(0, 1)]),
        ],
        &[1, 2],
    );
    let no_join = pair(&[BINGO, job(0, 4, 1)], &[SLEEP], &[]);
    vec![
        ("a count before VISIT", in_part(job(1, 0, 1))),
        ("behind its last order", in_part(job(1, 2, 0))),
        ("a count above that of the JOIN", twice_awaited),
        (
            "another count than that of the JOIN, before a WHOLE",
            late(0),
        ),
        ("a count though no JOIN is left", no_join),
    ]
}

fn distinct() -> Vec<Wrong> {
    let twice = pair(
        &[BINGO, job(0, 3, 1), job(1, 0, 0)],
        &[SLEEP, exit(0, 1), job(1, 0, 0)],
        &[1],
    );
    vec![("a part twice in work", twice)]
}

fn ends() -> Vec<Wrong> {
    vec![
        ("unit 0 ends in SLEEP", alone(&[SLEEP])),
        ("unit 1 ends in BINGO", pair(&[BINGO], &[BINGO], &[])),
        ("SLEEP on SLEEP", pair(&[BINGO], &[SLEEP, SLEEP], &[])),
        ("BINGO on BINGO", alone(&[BINGO, BINGO])),
        ("no frame", pair(&[BINGO], &[], &[])),
    ]
}

/// What a frame may stand on.
fn bearers() -> Vec<Wrong> {
    let waits = [BINGO, job(0, 4, 2)];
    let at_whole = [SLEEP, exit(0, 1), job(1, 1, 0), exit(0, 1), job(2, 0, 0)];
    let on_sleep = pair(&[BINGO, job(0, 2, 0)], &[SLEEP, job(1, 0, 0)], &[]);
    vec![
        (
            "an EXIT on a job at WHOLE",
            triple(&waits, &at_whole, &[1, 1]),
        ),
        (
            "an EXIT on an EXIT",
            triple(&waits, &[SLEEP, exit(0, 1), exit(0, 1)], &[1, 1]),
        ),
        ("a job on SLEEP", on_sleep),
    ]
}

/// Which argument of what it stands on a job may be.
fn arguments() -> Vec<Wrong> {
    let to_be_visited = pair(&[BINGO, job(0, 2, 0), job(2, 0, 0)], &[SLEEP], &[]);
    vec![
        ("not the root on BINGO", alone(&[BINGO, job(1, 0, 0)])),
        (
            "on a job before its VISIT",
            alone(&[BINGO, job(0, 0, 0), job(1, 0, 0)]),
        ),
        ("on a job that will visit it", to_be_visited),
        ("on the EXIT for such a job", in_part(job(2, 0, 0))),
        (
            "not an argument, but an argument's",
            alone(&[BINGO, job(0, 2, 0), job(2, 0, 0)]),
        ),
    ]
}

fn exits() -> Vec<Wrong> {
    let names = |unit: u8, index: u16| {
        let exit = exit(unit, index);
        pair(&[BINGO, job(0, 3, 0)], &[SLEEP, exit], &[1])
    };
    let job_at = |next: u8| pair(&[BINGO, job(0, next, 0)], &[SLEEP, exit(0, 1)], &[1]);
    let own = [SLEEP, exit(0, 1), job(1, 3, 1), exit(1, 2), job(2, 0, 0)];
    let own = point(
        &[2, 2, 0, 0, 0],
        &[(0, &[BINGO, job(0, 2, 1)]), (0, &own)],
        &[1, 1],
    );
    vec![
        ("names its own unit", own),
        ("names a unit that is not there", names(5, 1)),
        ("names BINGO", names(0, 0)),
        ("names what is above the stack", names(0, 2)),
        ("names a job at WHOLE", job_at(4)),
        ("names a job before its VISIT", job_at(0)),
    ]
}

fn counts() -> Vec<Wrong> {
    let work = [SLEEP, exit(0, 1), job(1, 0, 0)];
    vec![
        (
            "a JOIN counts what is not pending",
            pair(&[BINGO, job(0, 3, 1)], &[SLEEP], &[]),
        ),
        (
            "a JOIN doesn't count what is pending",
            pair(&[BINGO, job(0, 3, 0)], &work, &[1]),
        ),
        (
            "a FORK is not counted",
            pair(&[BINGO, job(0, 1, 0)], &[SLEEP], &[]),
        ),
    ]
}

fn room() -> Vec<Wrong> {
    let work = [BINGO, job(0, 2, 1), job(1, 0, 0)];
    let point = pair(&work, &[SLEEP, exit(0, 1)], &[1]);
    vec![(
        "of two arguments one to be visited, one in work and one that is done",
        point,
    )]
}

fn many() -> Vec<Wrong> {
    let placed = |order: &[u8]| with(lent(), |saved| saved.placed = order.to_vec());
    vec![
        ("no pending part", placed(&[])),
        ("one too many", placed(&[1, 1])),
        ("one of unit 0", placed(&[0, 1])),
        ("one of a unit that is not there", placed(&[1, 7])),
    ]
}

fn earlier() -> Vec<Wrong> {
    let turned = with(lent_twice(), |saved| saved.placed = vec![1, 2]);
    vec![("later than what it forked", turned)]
}

fn ranked() -> Vec<Wrong> {
    vec![
        ("two are first", asleep(1, 1)),
        ("none is first", asleep(2, 0)),
        ("none is second", asleep(1, 3)),
        ("as high as 3 bits hold", asleep(7, 0)),
    ]
}

fn idle() -> Vec<Wrong> {
    let at = |frames: &[SavedFrame]| point(&[2, 0, 0], &[(1, frames)], &[]);
    let at_exit = point(
        &[2, 0, 0],
        &[(0, &[BINGO, job(0, 2, 1)]), (1, &[SLEEP, exit(0, 1)])],
        &[1],
    );
    vec![
        ("at VISIT", at(&[BINGO, job(0, 0, 0)])),
        ("at FORK", at(&[BINGO, job(0, 1, 1)])),
        ("at WHOLE", at(&[BINGO, job(0, 4, 0)])),
        ("at a JOIN that counts 0", at(&[BINGO, job(0, 3, 0)])),
        ("at BINGO", at(&[BINGO])),
        ("at EXIT", at_exit),
    ]
}

// ---------------------------------------------------------------------------
// The form

/// 255 operators with lists of 31 items, 255 rules with sides of 64 symbols and
/// a day each.
pub fn longest_book() -> Vec<u8> {
    let list = [&[0, 1].repeat(15)[..], &[0]].concat();
    let operator = |arity: u8, items: &[u8]| OperatorDraft {
        arity,
        strategy: Some(items.to_vec()),
    };
    let mut operators = vec![operator(1, &list); 255];
    operators[0] = operator(0, &[0; 31]);
    let side = [vec![Symbol::Operator(7); 63], vec![Symbol::Operator(0)]].concat();
    let rules = vec![RuleDraft::new(side.clone(), side); 255];
    Draft::new(operators, rules).dated().encode()
}

/// For each rule of the form, what is wrong, and slots that break it.
pub fn misformed() -> Vec<(Rule, &'static str, Vec<u8>)> {
    let sound = lent();
    let end = sound.bytes().len();
    let book = sound.book.len() as u8;
    let last = sound.slot()[end - 1];
    let set = |place: usize, byte: u8| {
        let mut bytes = sound.slot();
        assert_ne!(bytes[place], byte);
        bytes[place] = byte;
        bytes
    };
    vec![
        (Rule::Name, "17 bytes", set(0, 17)),
        (Rule::Name, "255 bytes", set(0, 255)),
        (Rule::Name, "a byte behind the name", set(16, 1)),
        (Rule::Book, "a byte more", set(18, book + 1)),
        (Rule::Book, "a byte less", set(18, book - 1)),
        (Rule::Book, "longer than the slot", set(17, 255)),
        (Rule::Book, "dated, and then cut short", set(BOOK_AT, 0)),
        (Rule::Fields, "higher stacks than the slot holds", endless()),
        (Rule::Padding, "the last bit of it", set(end - 1, last | 1)),
    ]
}

/// As much as a slot holds of a point that is longer.
fn endless() -> Vec<u8> {
    let unit = SavedUnit {
        rank: 0,
        frames: vec![job(0, 0, 0); 2047],
    };
    let mut point = with(lent(), |saved| saved.units = vec![unit; 8]);
    point.book = longest_book();
    point.bytes()[..SLOT_LEN].to_vec()
}
