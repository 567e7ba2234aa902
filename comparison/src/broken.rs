//! The model with one slip, to show that the comparison finds slips.
//!
//! Slips are put in from outside, so that the model itself stays plain. Those
//! of runs are the document's own list of where hands slip.

use std::collections::{HashMap, VecDeque};
use std::{io, mem};

use crate::draft::Fees;
use crate::model::{
    self, Answer, Book, Filling, Form, Item, Lengths, Machine, Operator, Order, Pattern, Rule,
    Term, Unit, GAP,
};
use crate::nets::Walker;
use crate::program::Pages;
use crate::subject::{
    hand_over, hand_over_bound, hand_over_charge, hand_over_records, hand_over_settled, Bounded,
    Charged, Done, Lent, ModelSubject, Parts, Profile, Question, Settled, Subject, Told, Written,
    MODEL_PUBLISHED,
};
use crate::{broken_bounds, broken_fees, broken_lines, broken_marks, broken_strict};

#[derive(Clone, Copy, Debug, PartialEq, Eq)]
pub enum Slip {
    /// A woken unit's top JOIN is taken as passed.
    Join,
    /// A rewrite forgets more than that term's orders.
    List,
    /// 0s are collapsed before repeated arguments are dropped.
    Zeros,
    /// The longest left side is tried first.
    Longest,
    /// A variable's copies count once in the new size.
    Copies,
    /// The schedule is checked before the line.
    Order,
    /// One byte after the term is changed.
    Spill,
    /// The work area is cleared before the checks.
    Work,
    /// The work area's last byte is not left zero.
    Trace,
    /// The net's area is cleared before the checks.
    Begun,
    /// The net's last byte is not left zero.
    Remains,
    /// 15 is told of the net's area after 16 of the output.
    Outer,
    /// A further byte 0 after the book is let through.
    Padding,
    /// Lists are written as they were given.
    Given,
    /// C7 has the class of D.
    Cedilla,
    /// DF separates.
    Sharp,
    /// FF separates.
    Diaeresis,
    /// A run of separators at the text's end is kept.
    Tail,
    /// A run of separators at the text's front is kept.
    Front,
    /// 18 is told one symbol late.
    Late,
    /// 18 is told before 19.
    Swapped,
    /// Only the operators that the text names are looked at.
    Named,
    /// A kept FORK is counted when its JOIN passes.
    Kept,
    /// A granted FORK is counted as kept too.
    Twice,
    /// The page has its line `kept` above `granted`.
    Lines,
    /// FORK passes unit 0 by.
    Main,
    /// FORK takes the lowest other unit, busy or idle.
    Busy,
    /// FORK takes the idle unit of the lowest number.
    Lowest,
    /// FORK takes the unit that has been idle shortest.
    Shortest,
    /// A unit that becomes idle stands in front of the others.
    Newcomer,
    /// A unit woken by an EXIT has its old place when it is idle again.
    Woken,
    /// A waiting unit gets its work below its JOIN.
    Below,
    /// Of a repeated variable's parts only the lengths are compared.
    Lengths,
    /// Of a repeated variable's parts the last symbol is not compared.
    Last,
    /// A repeated variable is bound anew.
    Anew,
    /// The rule that goes by operators is taken before one that goes by
    /// variables, whatever the book's order.
    Special,
    /// A variable's way is not tried after an operator's failed.
    Back,
    /// Of the rules with one path only the first is tried.
    Beside,
    /// Within a day the first rule in the book stands.
    Earlier,
    /// A rule of the run's own day is taken as later.
    Own,
    /// Left sides agree whatever variables they repeat.
    Naming,
    /// Left sides agree only under the same names.
    Names,
    /// Rules of later days replace others before they are absent.
    Ahead,
    /// Rules that stand are tried by day, the latest first.
    ByDay,
    /// Rules of an undated book replace each other too.
    Undated,
    /// Books are written without their days.
    Days,
    /// The day's low byte is taken to come first.
    Low,
    /// An input has a day whatever its book.
    Always,
    /// The new symbols of a right side are marked.
    Fresh,
    /// Copies are without marks.
    Lost,
    /// Of a repeated variable the last part is copied.
    Later,
    /// A repeated variable's parts differ if their marks do.
    Marks,
    /// A marked part is walked again.
    Again,
    /// VISIT of a marked part takes no entry.
    Free,
    /// FORK of a marked part is dropped.
    Forked,
    /// Many lines share one budget.
    Purse,
    /// A line's schedule goes on where the last line's run ended.
    Onwards,
    /// A refused line is the last that is done.
    Halt,
    /// A line is done with one byte less than the longest record.
    Tight,
    /// A line that is cut short is taken as the end.
    Whole,
    /// A record has its rewrites with the low byte first.
    Reversed,
    /// The net's last byte is not left zero after many lines.
    Rest,
    /// A fee's half cent goes to the even neighbour.
    Even,
    /// A fee's half cent goes up, also where the fee is below zero.
    Upward,
    /// The cents left are left out.
    Dropped,
    /// The cents left go to the first owners.
    First,
    /// Remainders are compared with their sign.
    Signed,
    /// Of equal remainders the higher owner's goes first.
    Higher,
    /// The fee isn't taken off before the rest is split.
    Gross,
    /// 23 is told before 22.
    Hasty,
    /// The smallest amount is refused.
    Limit,
    /// A rate has its low byte first.
    Inverted,
    /// A rate of which one byte is there is taken.
    Severed,
    /// Shares are added up in 16 bits.
    Wrapped,
    /// The parts of absent owners are zeroed.
    Cleared,
    /// The rate is that of the line's root.
    Source,
    /// A run that didn't finish is charged too.
    Eager,
    /// 22 and 23 are told before the run's refusals.
    Sooner,
    /// Of two left sides, only the first one's variables agree with every part.
    OneSided,
    /// The last two rules are not held against each other.
    LastPair,
    /// Only neighbouring rules are held against each other.
    Neighbours,
    /// Of left sides only the roots are held against each other.
    Roots,
    /// Two rules with the same left side are taken as one.
    SameLeft,
    /// The last two rules that overlap are told, and not the first.
    LatestPair,
    /// 25 is told before 24.
    OverlapFirst,
    /// A dated book is taken as an undated one, so that 25 may be told of it.
    AnyDay,
    /// 24 is not told of a variable repeated in a left side.
    Repeating,
    /// 24 is not told of a book without a constant.
    Formless,
    /// The pair is not zeroed where a book is admitted.
    Stale,
    /// S is told without BINGO.
    Unended,
    /// F is told as the FORKs granted alone.
    Granted,
    /// S and F are told also where one unit ends full.
    Filled,
    /// S and F are those of a run without marks.
    Unmarked,
    /// The budget doesn't count for S and F.
    Unpaid,
    /// How long a schedule suffices is refused by 13 too.
    Crew,
    /// The work area is not left zero when S and F are told.
    Leftover,
}

pub const SLIPS: [(&str, Slip); 96] = [
    ("join", Slip::Join),
    ("list", Slip::List),
    ("zeros", Slip::Zeros),
    ("longest", Slip::Longest),
    ("copies", Slip::Copies),
    ("order", Slip::Order),
    ("spill", Slip::Spill),
    ("work", Slip::Work),
    ("trace", Slip::Trace),
    ("begun", Slip::Begun),
    ("remains", Slip::Remains),
    ("outer", Slip::Outer),
    ("padding", Slip::Padding),
    ("given", Slip::Given),
    ("cedilla", Slip::Cedilla),
    ("sharp", Slip::Sharp),
    ("diaeresis", Slip::Diaeresis),
    ("tail", Slip::Tail),
    ("front", Slip::Front),
    ("late", Slip::Late),
    ("swapped", Slip::Swapped),
    ("named", Slip::Named),
    ("kept", Slip::Kept),
    ("twice", Slip::Twice),
    ("lines", Slip::Lines),
    ("main", Slip::Main),
    ("busy", Slip::Busy),
    ("lowest", Slip::Lowest),
    ("shortest", Slip::Shortest),
    ("newcomer", Slip::Newcomer),
    ("woken", Slip::Woken),
    ("below", Slip::Below),
    ("lengths", Slip::Lengths),
    ("last", Slip::Last),
    ("anew", Slip::Anew),
    ("special", Slip::Special),
    ("back", Slip::Back),
    ("beside", Slip::Beside),
    ("earlier", Slip::Earlier),
    ("own", Slip::Own),
    ("naming", Slip::Naming),
    ("names", Slip::Names),
    ("ahead", Slip::Ahead),
    ("by-day", Slip::ByDay),
    ("undated", Slip::Undated),
    ("days", Slip::Days),
    ("low", Slip::Low),
    ("always", Slip::Always),
    ("fresh", Slip::Fresh),
    ("lost", Slip::Lost),
    ("later", Slip::Later),
    ("marks", Slip::Marks),
    ("again", Slip::Again),
    ("free", Slip::Free),
    ("forked", Slip::Forked),
    ("purse", Slip::Purse),
    ("onwards", Slip::Onwards),
    ("halt", Slip::Halt),
    ("tight", Slip::Tight),
    ("whole", Slip::Whole),
    ("reversed", Slip::Reversed),
    ("rest", Slip::Rest),
    ("even", Slip::Even),
    ("upward", Slip::Upward),
    ("dropped", Slip::Dropped),
    ("first", Slip::First),
    ("signed", Slip::Signed),
    ("higher", Slip::Higher),
    ("gross", Slip::Gross),
    ("hasty", Slip::Hasty),
    ("limit", Slip::Limit),
    ("inverted", Slip::Inverted),
    ("severed", Slip::Severed),
    ("wrapped", Slip::Wrapped),
    ("cleared", Slip::Cleared),
    ("source", Slip::Source),
    ("eager", Slip::Eager),
    ("sooner", Slip::Sooner),
    ("one-sided", Slip::OneSided),
    ("last-pair", Slip::LastPair),
    ("neighbours", Slip::Neighbours),
    ("roots", Slip::Roots),
    ("same-left", Slip::SameLeft),
    ("latest-pair", Slip::LatestPair),
    ("overlap-first", Slip::OverlapFirst),
    ("any-day", Slip::AnyDay),
    ("repeating", Slip::Repeating),
    ("formless", Slip::Formless),
    ("stale", Slip::Stale),
    ("unended", Slip::Unended),
    ("granted", Slip::Granted),
    ("filled", Slip::Filled),
    ("unmarked", Slip::Unmarked),
    ("unpaid", Slip::Unpaid),
    ("crew", Slip::Crew),
    ("leftover", Slip::Leftover),
];

impl Slip {
    /// Does it show in pages only?
    pub fn is_of_pages(self) -> bool {
        matches!(self, Slip::Lines | Slip::Low | Slip::Always)
    }

    /// Does it show in many lines only? The others don't show there.
    pub fn is_of_batches(self) -> bool {
        use Slip::*;
        matches!(
            self,
            Purse | Onwards | Halt | Tight | Whole | Reversed | Rest
        )
    }

    /// Does it show in charges only? The others don't show there.
    pub fn is_of_fees(self) -> bool {
        use Slip::*;
        self.is_of_settling()
            || matches!(
                self,
                Even | Upward | Dropped | First | Signed | Higher | Gross | Hasty | Limit
            )
            || matches!(self, Inverted | Severed | Wrapped | Cleared)
    }

    /// Does it show only in how long a schedule suffices? The others don't show
    /// there.
    pub fn is_of_bounds(self) -> bool {
        use Slip::*;
        matches!(
            self,
            Unended | Granted | Filled | Unmarked | Unpaid | Crew | Leftover
        )
    }

    /// Does it show only where a line is reduced before it is charged?
    pub fn is_of_settling(self) -> bool {
        matches!(self, Slip::Source | Slip::Eager | Slip::Sooner)
    }
}

pub struct BrokenModel {
    pub slip: Slip,
}

impl Subject for BrokenModel {
    fn published(&self) -> Lengths {
        MODEL_PUBLISHED
    }

    fn answer(&mut self, question: &Question, lent: &mut Lent) -> Told {
        match self.slip {
            Slip::Work => lent.work.fill(0),
            Slip::Begun => lent.net.fill(0),
            _ => {}
        }
        let answer = self.broken_answer(question, lent.lengths());
        let told = hand_over(answer, lent);
        if told.refusal == 0 {
            self.slip_in_buffers(told.length as usize, lent);
        }
        told
    }

    fn answer_lines(&mut self, question: &Question, lent: &mut Lent) -> Done {
        let answered = broken_lines::answered(self.slip, question, lent.lengths());
        let done = hand_over_records(&answered, lent);
        if done.refusal == 0 {
            broken_lines::slip_in_buffers(self.slip, lent);
        }
        done
    }

    fn written(&mut self, book: &[u8], output: &mut [u8]) -> Written {
        match (self.slip, model::read_book(book)) {
            (Slip::Given, Ok(book)) => write_given(book, output),
            (Slip::Days, Ok(book)) => write_undated(book, output),
            _ => ModelSubject.written(book, output),
        }
    }

    fn charge(&mut self, fees: &Fees, parts: &mut Parts) -> Charged {
        let charge = broken_fees::charge(self.slip, &fees.term, fees);
        if charge.is_ok() {
            broken_fees::slip_in_parts(self.slip, fees.shares.len(), parts);
        }
        hand_over_charge(&charge, parts)
    }

    fn settle(
        &mut self,
        question: &Question,
        fees: &Fees,
        output: &mut [u8],
        parts: &mut Parts,
    ) -> Settled {
        let settled = broken_fees::settle(self.slip, question, fees, output.len());
        hand_over_settled(&settled, output, parts)
    }

    fn profile(&mut self, book: &[u8]) -> Profile {
        broken_strict::profile(self.slip, book)
    }

    fn bound(&mut self, question: &Question, lent: &mut Lent) -> Bounded {
        let told = broken_bounds::told(self.slip, question, lent.lengths());
        let bounded = hand_over_bound(&told, lent);
        if let (Slip::Leftover, 0, [.., last]) = (self.slip, bounded.refusal, &mut *lent.work) {
            *last = 1;
        }
        bounded
    }
}

/// The other slips don't show here: their pages are sound.
impl Pages for BrokenModel {
    fn page(&self, form: Form, input: &[u8]) -> io::Result<Vec<u8>> {
        let page = |input: &[u8]| model::page_of(form, input);
        Ok(match self.slip {
            Slip::Lines => with_kept_above_granted(&page(input)),
            Slip::Low => page(&with_day_swapped(input)),
            Slip::Always => page(&without_ignored_day(input)),
            _ => page(input),
        })
    }
}

impl BrokenModel {
    fn slip_in_buffers(&self, length: usize, lent: &mut Lent) {
        let slipped = match self.slip {
            Slip::Spill => lent.output.get_mut(length),
            Slip::Trace => lent.work.last_mut(),
            Slip::Remains => lent.net.last_mut(),
            _ => None,
        };
        if let Some(byte) = slipped {
            *byte = !*byte;
        }
    }

    fn broken_answer(&self, question: &Question, lengths: Lengths) -> Result<Answer, u8> {
        if self.slip == Slip::Outer {
            // The net's area is asked for behind the output.
            let longer = Lengths {
                net: MODEL_PUBLISHED.net,
                ..lengths
            };
            model::check_frame(question.units, longer, MODEL_PUBLISHED)?;
        }
        model::check_frame(question.units, lengths, MODEL_PUBLISHED)?;
        let book = self.broken_book(question.book, question.day)?;
        if self.slip == Slip::Order {
            model::check_schedule(question.schedule, question.units)?;
        }
        let line = match question.form {
            Form::Line => model::read_line(&book, question.line)?,
            Form::Text => self.broken_text(&book, question.line)?,
        };
        model::check_schedule(question.schedule, question.units)?;
        let singles = match self.slip {
            Slip::Special | Slip::Back | Slip::Beside | Slip::Marks => singles(&book),
            _ => Vec::new(),
        };
        let mut machine = Machine::new(&book, line, question.units, question.budget);
        let ending = self.run(&mut machine, question.schedule, &singles);
        Ok(machine.answer(ending))
    }

    fn broken_book(&self, bytes: &[u8], day: u16) -> Result<Book, u8> {
        let bytes = match bytes {
            [before @ .., 0] if self.slip == Slip::Padding && model::read_book(before).is_ok() => {
                before
            }
            _ => bytes,
        };
        let mut book = self.broken_day(model::read_book(bytes)?, day);
        match self.slip {
            Slip::Zeros => settle_zeros_first(&mut book),
            Slip::Longest => book.rules.sort_by_key(|rule| usize::MAX - rule.left.size()),
            _ => {}
        }
        Ok(book)
    }

    /// The book of a day. Slips in which rules stand are made by changing the
    /// dated book, so that the model's own answer is the wrong one.
    fn broken_day(&self, mut book: Book, day: u16) -> Book {
        match (self.slip, &mut book.days) {
            (Slip::Earlier, Some(days)) => {
                days.reverse();
                book.rules.reverse();
                let mut book = book.on_day(day);
                book.rules.reverse();
                return book;
            }
            (Slip::Own, Some(_)) => return before_day(book, day),
            (Slip::Naming | Slip::Names | Slip::Ahead, Some(days)) => {
                let days = days.clone();
                return self.standing_otherwise(&book, &days, day);
            }
            (Slip::ByDay, Some(days)) => sort_by_day(&mut book.rules, days),
            (Slip::Undated, None) => book.days = Some(vec![0; book.rules.len()]),
            _ => {}
        }
        book.on_day(day)
    }

    /// The rules that stand if the slip says which left sides agree, or which
    /// rules replace others.
    fn standing_otherwise(&self, book: &Book, days: &[u16], day: u16) -> Book {
        let agree = |one: &Pattern, other: &Pattern| match self.slip {
            Slip::Naming => one.unnamed() == other.unnamed(),
            Slip::Names => one == other,
            _ => one.agrees(other),
        };
        let present = |place: usize| days[place] <= day;
        let replaced = |place: usize| {
            (0..days.len()).any(|other| {
                (present(other) || self.slip == Slip::Ahead)
                    && (days[other], other) > (days[place], place)
                    && agree(&book.rules[other].left, &book.rules[place].left)
            })
        };
        let standing = (0..days.len()).filter(|&place| present(place) && !replaced(place));
        Book {
            rules: standing.map(|place| book.rules[place].clone()).collect(),
            days: None,
            operators: book.operators.clone(),
        }
    }

    fn broken_text(&self, book: &Book, text: &[u8]) -> Result<Term, u8> {
        let classes = self.broken_classes(text);
        let length = match self.slip {
            Slip::Late => model::check_text_length(&classes[..classes.len().saturating_sub(1)]),
            _ => model::check_text_length(&classes),
        };
        if self.slip == Slip::Swapped {
            length?;
        }
        match self.slip {
            Slip::Named => model::check_class_operators(&without_unnamed(book, &classes))?,
            _ => model::check_class_operators(book)?,
        }
        length?;
        Ok(model::text_term(&classes))
    }

    fn broken_classes(&self, text: &[u8]) -> Vec<u8> {
        let read_as = |wrong: u8, other: u8| {
            let byte = |&byte: &u8| if byte == wrong { other } else { byte };
            model::squeezed(&text.iter().map(byte).collect::<Vec<u8>>())
        };
        let separates = |byte: &u8| model::class(*byte).is_none();
        let mut classes = model::squeezed(text);
        match self.slip {
            Slip::Cedilla => return read_as(0xC7, b'D'),
            Slip::Sharp => return read_as(0xDF, b' '),
            Slip::Diaeresis => return read_as(0xFF, b' '),
            Slip::Tail if text.last().is_some_and(separates) => classes.push(GAP),
            Slip::Front if text.first().is_some_and(separates) => classes.insert(0, GAP),
            _ => {}
        }
        classes
    }

    fn run<'b>(&self, machine: &mut Machine<'b>, schedule: &[u8], singles: &'b [Book]) -> u8 {
        let mut open = HashMap::new();
        let mut places = machine.queue.iter().copied().collect();
        let walker = Walker::new(machine.book);
        for &unit in schedule {
            let unit = usize::from(unit);
            drop_stray_orders(machine, unit);
            let ending = match self.slip {
                Slip::Join => entry_passing_joins(machine, unit),
                Slip::List => entry_forgetting_list(machine, unit),
                Slip::Copies => entry_counting_copies_once(machine, unit),
                Slip::Kept => entry_counting_at_joins(machine, unit, &mut open),
                Slip::Twice => entry_counting_grants_twice(machine, unit),
                Slip::Main | Slip::Busy | Slip::Lowest | Slip::Shortest => {
                    entry_with_queue(machine, unit, self.slip)
                }
                Slip::Newcomer => entry_queueing_in_front(machine, unit),
                Slip::Woken => entry_keeping_places(machine, unit, &mut places),
                Slip::Below => entry_working_below(machine, unit),
                Slip::Lengths | Slip::Last | Slip::Anew | Slip::Later => {
                    entry_taking_as_alike(machine, unit, self.slip)
                }
                Slip::Special | Slip::Back | Slip::Beside => {
                    entry_by_net(machine, unit, self.slip, &walker, singles)
                }
                Slip::Fresh
                | Slip::Lost
                | Slip::Marks
                | Slip::Again
                | Slip::Free
                | Slip::Forked => broken_marks::entry(self.slip, machine, unit, singles),
                _ => machine.entry(unit),
            };
            if let Some(ending) = ending {
                return ending;
            }
        }
        model::ending::CUT
    }
}

/// On day 0 no rule is left.
fn before_day(mut book: Book, day: u16) -> Book {
    match day.checked_sub(1) {
        Some(before) => book.on_day(before),
        None => {
            book.rules.clear();
            book.days = None;
            book
        }
    }
}

/// The latest day first, within a day as in the book.
fn sort_by_day(rules: &mut Vec<Rule>, days: &mut Vec<u16>) {
    let mut places: Vec<usize> = (0..days.len()).collect();
    places.sort_by_key(|&place| u16::MAX - days[place]);
    *rules = places.iter().map(|&place| rules[place].clone()).collect();
    *days = places.iter().map(|&place| days[place]).collect();
}

/// The book with sound class operators wherever the classes don't name them.
fn without_unnamed(book: &Book, classes: &[u8]) -> Book {
    let mut book = book.clone();
    let plain = Operator {
        arity: 1,
        given: None,
        strategy: model::default_strategy(1),
    };
    for class in (1..=GAP).filter(|class| !classes.contains(class)) {
        let place = usize::from(class);
        if place < book.operators.len() {
            book.operators[place] = plain.clone();
        } else if place == book.operators.len() {
            book.operators.push(plain.clone());
        }
    }
    book
}

fn settle_zeros_first(book: &mut Book) {
    for operator in &mut book.operators {
        if let Some(given) = &operator.given {
            let mut items = given.clone();
            items.dedup_by(|item, before| *item == Item::Whole && *before == Item::Whole);
            operator.strategy = settle_without_zeros(&items);
        }
    }
}

/// Settles each stretch between 0s by itself, so that no 0s meet.
fn settle_without_zeros(items: &[Item]) -> Vec<Item> {
    let mut seen = Vec::new();
    let mut settled = Vec::new();
    for item in items {
        if *item == Item::Whole {
            settled.push(Item::Whole);
            continue;
        }
        seen.push(item.clone());
        let with_item = model::settle(&seen);
        let before = model::settle(&seen[..seen.len() - 1]);
        settled.extend_from_slice(&with_item[before.len()..]);
    }
    settled
}

fn entry_passing_joins(machine: &mut Machine, unit: usize) -> Option<u8> {
    let idle: Vec<usize> = (0..machine.units.len())
        .filter(|&other| !machine.units[other].busy)
        .collect();
    let is_exit = matches!(machine.units[unit].orders.last(), Some(Order::Exit { .. }));
    let ending = machine.entry(unit);
    for other in idle {
        let woken = &mut machine.units[other];
        if let (true, true, Some(Order::Join { count })) =
            (is_exit, woken.busy, woken.orders.last_mut())
        {
            *count = 0;
        }
    }
    ending
}

/// EXIT, JOIN and the lowest order are spared; without them no run would
/// come far enough to show the slip.
fn entry_forgetting_list(machine: &mut Machine, unit: usize) -> Option<u8> {
    let rewrites = machine.rewrites;
    let ending = machine.entry(unit);
    if machine.rewrites > rewrites {
        let orders = &mut machine.units[unit].orders;
        let visit = orders.pop().expect("a rewrite leaves a VISIT on top");
        while matches!(
            orders.last(),
            Some(Order::Visit(_) | Order::Fork { .. } | Order::Whole { .. })
        ) {
            orders.pop();
        }
        orders.push(visit);
    }
    ending
}

fn entry_counting_copies_once(machine: &mut Machine, unit: usize) -> Option<u8> {
    let more = match machine.units[unit].orders.last() {
        Some(Order::Whole { term, .. }) => machine
            .term
            .part(term)
            .map_or(0, |part| copied(machine.book, part)),
        _ => 0,
    };
    machine.size_limit = model::TERM_LIMIT + more;
    machine.entry(unit)
}

/// The symbols of all copies but the first in the rewrite that is due.
fn copied(book: &Book, part: &model::Term) -> usize {
    let Some((rule, filling)) = book.first_match(part) else {
        return 0;
    };
    let mut seen = Vec::new();
    rule.right.filled_size(&filling) - size_with_copies_once(&rule.right, &filling, &mut seen)
}

fn size_with_copies_once(side: &Pattern, filling: &Filling, seen: &mut Vec<u8>) -> usize {
    match side {
        Pattern::Variable(variable) if seen.contains(variable) => 0,
        Pattern::Variable(variable) => {
            seen.push(*variable);
            side.filled_size(filling)
        }
        Pattern::Operator(_, arguments) => {
            let sizes = arguments
                .iter()
                .map(|argument| size_with_copies_once(argument, filling, seen));
            1 + sizes.sum::<usize>()
        }
    }
}

/// `open` has the kept FORKs of each JOIN, by unit and place in its list.
fn entry_counting_at_joins(
    machine: &mut Machine,
    unit: usize,
    open: &mut HashMap<(usize, usize), u64>,
) -> Option<u8> {
    let kept = machine.kept;
    let top = machine.units[unit].orders.last().cloned();
    let ending = machine.entry(unit);
    match top {
        Some(Order::Fork { join, .. }) => {
            *open.entry((unit, join)).or_default() += machine.kept - kept;
            machine.kept = kept;
        }
        Some(Order::Join { count: 0 }) => {
            let place = machine.units[unit].orders.len();
            machine.kept += open.remove(&(unit, place)).unwrap_or(0);
        }
        _ => {}
    }
    ending
}

fn entry_counting_grants_twice(machine: &mut Machine, unit: usize) -> Option<u8> {
    let granted = machine.granted;
    let ending = machine.entry(unit);
    machine.kept += machine.granted - granted;
    ending
}

/// A FORK sees another queue. The unit that gets its part is then taken from
/// the one that there is.
fn entry_with_queue(machine: &mut Machine, unit: usize, slip: Slip) -> Option<u8> {
    if !matches!(machine.due(unit), Some(Order::Fork { .. })) {
        return machine.entry(unit);
    }
    let seen = seen_queue(machine, unit, slip);
    let mut queue = mem::replace(&mut machine.queue, seen.clone());
    let granted = machine.granted;
    let ending = machine.entry(unit);
    if machine.granted > granted {
        queue.retain(|&idle| idle != seen[0]);
    }
    machine.queue = queue;
    ending
}

fn seen_queue(machine: &Machine, unit: usize, slip: Slip) -> VecDeque<usize> {
    let mut queue = machine.queue.clone();
    match slip {
        Slip::Main => queue.retain(|&idle| idle != 0),
        Slip::Busy => {
            queue = (0..machine.units.len())
                .filter(|&other| other != unit)
                .collect()
        }
        Slip::Lowest => queue.make_contiguous().sort_unstable(),
        _ => queue.make_contiguous().reverse(),
    }
    queue
}

fn entry_queueing_in_front(machine: &mut Machine, unit: usize) -> Option<u8> {
    let idle = machine.queue.len();
    let ending = machine.entry(unit);
    if machine.queue.len() > idle {
        machine.queue.rotate_right(1);
    }
    ending
}

/// `places` are the queue with the woken units still in it; one that becomes
/// idle again has its old place.
fn entry_keeping_places(machine: &mut Machine, unit: usize, places: &mut Vec<usize>) -> Option<u8> {
    let is_fork = matches!(machine.due(unit), Some(Order::Fork { .. }));
    let first = machine.queue.front().copied();
    let ending = machine.entry(unit);
    if is_fork {
        places.retain(|&place| Some(place) != first);
    }
    for &idle in &machine.queue {
        if !places.contains(&idle) {
            places.push(idle);
        }
    }
    let is_idle = |place: &usize| !machine.units[*place].busy;
    machine.queue = places.iter().copied().filter(is_idle).collect();
    ending
}

fn state_and_height(unit: &Unit) -> (bool, usize) {
    (unit.busy, unit.orders.len())
}

/// The JOIN then stands two orders higher, and its EXITs with it.
fn entry_working_below(machine: &mut Machine, unit: usize) -> Option<u8> {
    let granted = machine.granted;
    let waiting: Vec<(bool, usize)> = machine.units.iter().map(state_and_height).collect();
    let ending = machine.entry(unit);
    if machine.granted == granted {
        return ending;
    }
    let helper = (0..waiting.len())
        .find(|&other| machine.units[other].orders.len() == waiting[other].1 + 2)
        .expect("a granted part stands on some list");
    let join = waiting[helper].1 - 1;
    if matches!(machine.units[helper].orders[join], Order::Join { .. }) {
        machine.units[helper].orders[join..].rotate_left(1);
        for order in machine.units.iter_mut().flat_map(|unit| &mut unit.orders) {
            match order {
                Order::Exit { unit, join: place } if (*unit, *place) == (helper, join) => {
                    *place += 2;
                }
                _ => {}
            }
        }
    }
    ending
}

/// Where a left side matches by the slip, the part is first made what the left
/// side takes it for.
fn entry_taking_as_alike(machine: &mut Machine, unit: usize, slip: Slip) -> Option<u8> {
    let book = machine.book;
    if let Some(Order::Whole { term, .. }) = machine.due(unit).cloned() {
        let part = machine.term.part_mut(&term).expect("no order is stray");
        let before = part.clone();
        let taken = book.rules.iter().find_map(|rule| {
            let mut filling = [None; 16];
            takes_as_alike(&rule.left, &before, &mut filling, slip)
                .then(|| rule.left.filled(&filling))
        });
        *part = taken.unwrap_or_else(|| before.clone());
        machine.size = machine.size + part.size() - before.size();
    }
    machine.entry(unit)
}

fn takes_as_alike<'t>(
    side: &Pattern,
    term: &'t Term,
    filling: &mut Filling<'t>,
    slip: Slip,
) -> bool {
    match side {
        Pattern::Variable(variable) => {
            let filled = &mut filling[usize::from(*variable)];
            match (*filled, slip) {
                (Some(first), Slip::Lengths) => first.size() == term.size(),
                (Some(first), Slip::Last) => front(first) == front(term),
                (first, _) => {
                    *filled = Some(term);
                    slip != Slip::Later || first.is_none_or(|first| first == term)
                }
            }
        }
        Pattern::Operator(operator, sides) => {
            *operator == term.operator
                && sides
                    .iter()
                    .zip(&term.arguments)
                    .all(|(side, part)| takes_as_alike(side, part, filling, slip))
        }
    }
}

/// All symbols but the last.
fn front(term: &Term) -> Vec<u8> {
    let mut symbols = term.preorder();
    symbols.pop();
    symbols
}

/// A book without rules, and behind it one for each rule alone.
fn singles(book: &Book) -> Vec<Book> {
    let alone = |rules: &[Rule]| Book {
        rules: rules.to_vec(),
        ..book.clone()
    };
    let of_rules = book.rules.chunks(1).map(alone);
    [alone(&[])].into_iter().chain(of_rules).collect()
}

/// WHOLE has but the rule that a net with the slip finds, or none.
fn entry_by_net<'b>(
    machine: &mut Machine<'b>,
    unit: usize,
    slip: Slip,
    walker: &Walker,
    singles: &'b [Book],
) -> Option<u8> {
    let book = machine.book;
    if let Some(Order::Whole { term, .. }) = machine.due(unit) {
        let part = machine.term.part(term).expect("no order is stray");
        let found = found_by_net(walker, part, slip);
        machine.book = &singles[found.map_or(0, |rule| rule + 1)];
    }
    let ending = machine.entry(unit);
    machine.book = book;
    ending
}

fn found_by_net(walker: &Walker, part: &Term, slip: Slip) -> Option<usize> {
    let walk = walker.walk(part, slip != Slip::Back);
    let mut matching = walk.leaves.iter().filter_map(|leaf| match slip {
        Slip::Beside => walker.matching(&leaf[..1].to_vec(), part),
        _ => walker.matching(leaf, part),
    });
    match slip {
        Slip::Special => matching.next(),
        _ => matching.min(),
    }
}

fn with_kept_above_granted(page: &[u8]) -> Vec<u8> {
    let mut lines: Vec<&[u8]> = page.split_inclusive(|&byte| byte == b'\n').collect();
    let place = |word: &[u8]| lines.iter().position(|line| line.starts_with(word));
    if let (Some(granted), Some(kept)) = (place(b"granted "), place(b"kept ")) {
        lines.swap(granted, kept);
    }
    lines.concat()
}

/// Where a day stands in an input, or would: behind the budget.
fn day_place(input: &[u8]) -> Option<usize> {
    let length = |place: usize| {
        let bytes = input.get(place..place + 2)?;
        Some(usize::from(u16::from_be_bytes([bytes[0], bytes[1]])))
    };
    let line = 2 + length(0)?;
    let day = line + 2 + length(line)? + 5;
    (day + 2 <= input.len()).then_some(day)
}

fn is_input_dated(input: &[u8]) -> bool {
    !input.starts_with(&[0, 0]) && input.get(2) == Some(&0)
}

fn with_day_swapped(input: &[u8]) -> Vec<u8> {
    let mut input = input.to_vec();
    if let (true, Some(place)) = (is_input_dated(&input), day_place(&input)) {
        input.swap(place, place + 1);
    }
    input
}

/// The first two entries of an undated book's schedule are taken for a day.
fn without_ignored_day(input: &[u8]) -> Vec<u8> {
    let mut input = input.to_vec();
    if let (false, Some(place)) = (is_input_dated(&input), day_place(&input)) {
        input.drain(place..place + 2);
    }
    input
}

/// A slip can leave orders whose part or JOIN is gone. The model would stop
/// there, and nothing would be left to compare.
fn drop_stray_orders(machine: &mut Machine, unit: usize) {
    while machine.units[unit].busy && has_stray_top(machine, unit) {
        machine.units[unit].orders.pop();
    }
}

fn has_stray_top(machine: &Machine, unit: usize) -> bool {
    let is_open_join = |unit: usize, join: usize| {
        matches!(
            machine.units[unit].orders.get(join),
            Some(Order::Join { count: 1.. })
        )
    };
    match machine.units[unit].orders.last() {
        Some(Order::Visit(term) | Order::Whole { term, .. }) => machine.term.part(term).is_none(),
        Some(Order::Fork { join, .. }) => !is_open_join(unit, *join),
        Some(Order::Exit { unit, join }) => !is_open_join(*unit, *join),
        _ => false,
    }
}

fn write_given(mut book: Book, output: &mut [u8]) -> Written {
    for operator in &mut book.operators {
        if let Some(given) = operator.given.take() {
            operator.strategy = given;
        }
    }
    hand_over_book(&book, output)
}

fn write_undated(mut book: Book, output: &mut [u8]) -> Written {
    book.days = None;
    hand_over_book(&book, output)
}

fn hand_over_book(book: &Book, output: &mut [u8]) -> Written {
    let bytes = model::write_book(book);
    match output.get_mut(..bytes.len()) {
        None => Written {
            refusal: model::refusal::OUTPUT,
            length: 0,
        },
        Some(front) => {
            front.copy_from_slice(&bytes);
            Written {
                refusal: 0,
                length: bytes.len() as u64,
            }
        }
    }
}
