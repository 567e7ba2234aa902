//! What a net over the left sides meets in a run, so that the comparison can
//! tell whether its cases try nets.
//!
//! The model tries rules one by one. A walk down a net goes by the keys of left
//! sides in preorder: an operator, or any part where a variable stands.

use std::collections::HashSet;
use std::fmt::{self, Display, Formatter};

use crate::model::{self, Book, Machine, Order, Pattern, Term};
use crate::subject::Question;

/// What is counted, each a search for the rule of a part.
pub const KINDS: [&str; 8] = [
    "that go back to a variable's way",
    "that pass a later rule before the first",
    "that leave a branch of later rules out",
    "that end at another rule of a path than its first",
    "that agree for 16 symbols and find nothing",
    "that match 32 symbols or more",
    "that match by one of 200 rules or more",
    "that pass the path of a rule that does not stand",
];

/// How often each kind was met.
#[derive(Clone, Debug, Default, PartialEq, Eq)]
pub struct Nets {
    pub searches: u64,
    pub counts: [u64; KINDS.len()],
}

/// A left side's keys; nothing where a variable stands.
pub type Path = Vec<Option<u8>>;

pub fn path_of(side: &Pattern, path: &mut Path) {
    match side {
        Pattern::Variable(_) => path.push(None),
        Pattern::Operator(operator, sides) => {
            path.push(Some(*operator));
            sides.iter().for_each(|side| path_of(side, path));
        }
    }
}

/// The left sides of a book, to be walked along.
pub struct Walker<'b> {
    book: &'b Book,
    paths: Vec<Path>,
}

/// The rules of one path at whose end a walk arrives, in book order.
pub type Leaf = Vec<usize>;

/// A node: the rules behind it, and how many keys lead to it.
struct Node<'t> {
    rules: Vec<usize>,
    depth: usize,
    /// The parts that are still to come, the next one last.
    due: Vec<&'t Term>,
}

/// What a walk met.
#[derive(Default)]
pub struct Walk {
    /// The leaves in the order of a walk that goes by the term's symbol first
    /// and comes back for the variable's way.
    pub leaves: Vec<Leaf>,
    /// The first rule of every node that was entered from behind, by a
    /// variable's way, with the number of leaves before it.
    backs: Vec<(usize, usize)>,
    /// The most keys that agreed.
    pub deepest: usize,
}

impl<'b> Walker<'b> {
    pub fn new(book: &'b Book) -> Walker<'b> {
        let paths = book.rules.iter().map(|rule| {
            let mut path = Path::new();
            path_of(&rule.left, &mut path);
            path
        });
        let paths = paths.collect();
        Walker { book, paths }
    }

    /// Walks every way that agrees; without going back, only the first.
    pub fn walk(&self, term: &Term, goes_back: bool) -> Walk {
        let mut walk = Walk::default();
        let start = Node {
            rules: (0..self.paths.len()).collect(),
            depth: 0,
            due: vec![term],
        };
        self.enter(start, goes_back, &mut walk);
        walk
    }

    fn enter(&self, mut node: Node, goes_back: bool, walk: &mut Walk) {
        walk.deepest = walk.deepest.max(node.depth);
        let Some(part) = node.due.pop() else {
            walk.leaves.push(node.rules);
            return;
        };
        let by = |key: Option<u8>| -> Vec<usize> {
            let rules = node.rules.iter().copied();
            rules
                .filter(|&rule| self.paths[rule][node.depth] == key)
                .collect()
        };
        let (by_symbol, by_part) = (by(Some(part.operator)), by(None));
        let agrees = !by_symbol.is_empty();
        if agrees {
            let inside = part.arguments.iter().rev();
            let next = Node {
                rules: by_symbol,
                depth: node.depth + 1,
                due: node.due.iter().copied().chain(inside).collect(),
            };
            self.enter(next, goes_back, walk);
        }
        if by_part.is_empty() || agrees && !goes_back {
            return;
        }
        if agrees {
            walk.backs.push((by_part[0], walk.leaves.len()));
        }
        let next = Node {
            rules: by_part,
            depth: node.depth + 1,
            due: node.due,
        };
        self.enter(next, goes_back, walk);
    }

    /// The first rule of a leaf that matches.
    pub fn matching(&self, leaf: &Leaf, term: &Term) -> Option<usize> {
        let matches = |&&rule: &&usize| self.matches(rule, term);
        leaf.iter().find(matches).copied()
    }

    pub fn matches(&self, rule: usize, term: &Term) -> bool {
        let mut filling = [None; 16];
        self.book.rules[rule].left.matches(term, &mut filling)
    }
}

impl Nets {
    /// Counts the searches of a question's run; nothing if it is refused, or
    /// no two rules have one root.
    pub fn count(&mut self, question: &Question) {
        let Ok(book) = model::read_book(question.book) else {
            return;
        };
        let all: Vec<Path> = Walker::new(&book).paths;
        let book = book.on_day(question.day);
        let walker = Walker::new(&book);
        let roots: HashSet<_> = walker.paths.iter().map(|path| path[0]).collect();
        if roots.len() == walker.paths.len() {
            return;
        }
        let Ok(line) = question.form.read(&book, question.line) else {
            return;
        };
        let standing: HashSet<&Path> = walker.paths.iter().collect();
        let absent = all.iter().filter(|path| !standing.contains(path));
        let absent: Vec<&Path> = absent.collect();
        let mut machine = Machine::new(&book, line, question.units, question.budget);
        for &unit in question.schedule {
            self.look(&walker, &absent, &machine, unit.into());
            if machine.entry(unit.into()).is_some() {
                break;
            }
        }
    }

    /// Looks at the search of the unit's next entry, if there is one.
    fn look(&mut self, walker: &Walker, absent: &[&Path], machine: &Machine, unit: usize) {
        let Some(Order::Whole { term, .. }) = machine.due(unit) else {
            return;
        };
        let Some(part) = machine.term.part(term) else {
            return;
        };
        let walk = walker.walk(part, true);
        self.searches += 1;
        for (count, met) in self.counts.iter_mut().zip(kinds(walker, &walk, part)) {
            *count += u64::from(met);
        }
        if walk.deepest > 0 && absent.iter().any(|path| passes(path, part)) {
            self.counts[7] += 1;
        }
    }
}

/// The kinds that a search is of, but for the last.
fn kinds(walker: &Walker, walk: &Walk, part: &Term) -> [bool; 7] {
    let found: Vec<Option<usize>> = walk
        .leaves
        .iter()
        .map(|leaf| walker.matching(leaf, part))
        .collect();
    let Some(first) = found.iter().flatten().min().copied() else {
        return [false, false, false, false, walk.deepest >= 16, false, false];
    };
    let ahead = walker.walk(part, false);
    let is_ahead = ahead.leaves.iter().any(|leaf| leaf.contains(&first));
    let passed = found.iter().flatten().next() != Some(&first);
    let left_out = walk.backs.iter().any(|(rule, before)| {
        let best = found[..*before].iter().flatten().min();
        best.is_some_and(|best| best < rule)
    });
    let is_second = |leaf: &Leaf| leaf.contains(&first) && leaf[0] != first;
    [
        !is_ahead,
        passed,
        left_out,
        walk.leaves.iter().any(is_second),
        false,
        walker.paths[first].len() >= 32,
        walker.paths.len() >= 200,
    ]
}

/// Does the term agree with this path?
fn passes(path: &Path, term: &Term) -> bool {
    let mut due = vec![term];
    path.iter().all(|key| match (key, due.pop()) {
        (None, Some(_)) => true,
        (Some(operator), Some(part)) => {
            due.extend(part.arguments.iter().rev());
            *operator == part.operator
        }
        (_, None) => unreachable!("a path has a key for each part"),
    })
}

impl Display for Nets {
    fn fmt(&self, text: &mut Formatter) -> fmt::Result {
        writeln!(text, "searches among several rules: {}", self.searches)?;
        for (kind, count) in KINDS.iter().zip(self.counts) {
            writeln!(text, "searches {kind}: {count}")?;
        }
        Ok(())
    }
}
