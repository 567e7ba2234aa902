//! A trace as a picture: a lane for each unit, time from left to right.
//!
//! A busy unit's lane is a box, a waiting one's is hatched, an idle one's is a
//! thin line, so that the three differ in shape and not in colour alone. A unit
//! that helps has its box above a hatched strip, the JOIN at which it waited.
//! Of three units or more, those that are not busy have their place in the queue
//! written where it changes: a FORK's part goes to number 1.

use std::fmt::{Display, Write};

use crate::trace::text::{change, closing, order};
use crate::trace::{Deed, State, Step, Trace};

/// The most entries in one row, while rows aren't too many.
const ROW_ENTRIES: usize = 240;
const MOST_ROWS: usize = 6;
const PLOT_WIDTH: f64 = 1440.0;
const WIDEST_CELL: f64 = 30.0;
const LEFT: f64 = 76.0;
const RIGHT: f64 = 30.0;
const TOP: f64 = 74.0;
const LANE: f64 = 26.0;
const LANE_GAP: f64 = 20.0;
/// The JOIN under the work of a unit that helps.
const STRIP: f64 = 8.0;
const AXIS: f64 = 46.0;
const LEGEND: f64 = 112.0;
const HELPING_LEGEND: f64 = 30.0;
const PLACES_LEGEND: f64 = 30.0;
/// The least width that a place in the queue is written in.
const PLACE_WIDTH: f64 = 9.0;
/// Narrower cells have no letter, and narrower still no cell of their own.
const LETTER_CELL: f64 = 10.0;
const OWN_CELL: f64 = 3.0;
/// The least width that title and legend need.
const LEAST_WIDTH: f64 = 760.0;

const BUSY: &str = "#9ccbee";
const ACTS: &str = "#0072b2";
const REWRITES: &str = "#f0e442";
const WAITS: &str = "#e69f00";
const IDLE: &str = "#b8b8b8";
const FORK: &str = "#00664b";
const EXIT: &str = "#882255";
const INK: &str = "#222222";

/// The picture of a trace under a title.
pub fn draw(trace: &Trace, title: &str, rule_lines: &[usize]) -> String {
    let layout = Layout::of(trace);
    let mut picture = Picture {
        trace,
        rule_lines,
        layout,
        svg: String::new(),
    };
    picture.head(title);
    for row in 0..picture.layout.rows {
        picture.row(row);
    }
    picture.legend();
    picture.svg.push_str("</svg>\n");
    picture.svg
}

/// How the entries fall into rows and cells.
#[derive(Clone, Copy, Debug)]
struct Layout {
    rows: usize,
    row_entries: usize,
    cell: f64,
    row_height: f64,
    width: f64,
    /// Where the legend begins.
    legend: f64,
    height: f64,
    /// Does a unit help?
    helping: bool,
    /// Can several units be idle at once?
    places: bool,
}

impl Layout {
    fn of(trace: &Trace) -> Layout {
        let entries = trace.steps.len().max(1);
        let rows = entries.div_ceil(ROW_ENTRIES).min(MOST_ROWS);
        // Rows begin at numbers that the axis shows.
        let row_entries = match rows {
            1 => entries,
            _ => {
                let least = entries.div_ceil(rows);
                least.next_multiple_of(tick(PLOT_WIDTH / least as f64))
            }
        };
        let cell = (PLOT_WIDTH / row_entries as f64).min(WIDEST_CELL);
        let row_height = trace.units as f64 * (LANE + LANE_GAP) + AXIS;
        let plot = cell * row_entries as f64;
        let helping = trace
            .steps
            .iter()
            .any(|step| step.states.contains(&State::Helping));
        let places = trace.units > 2;
        let plots = TOP + rows as f64 * row_height;
        let optional = |drawn: bool, height: f64| if drawn { height } else { 0.0 };
        Layout {
            rows,
            row_entries,
            cell,
            row_height,
            width: (LEFT + plot + RIGHT).max(LEAST_WIDTH),
            legend: plots + 12.0,
            height: plots
                + LEGEND
                + optional(helping, HELPING_LEGEND)
                + optional(places, PLACES_LEGEND),
            helping,
            places,
        }
    }

    /// Where the cell of an entry of a row begins; entries count from 0 here.
    fn x(&self, row: usize, entry: usize) -> f64 {
        LEFT + (entry - row * self.row_entries) as f64 * self.cell
    }

    fn lane(&self, row: usize, unit: usize) -> f64 {
        TOP + row as f64 * self.row_height + unit as f64 * (LANE + LANE_GAP)
    }

    /// The entries of a row, counted from 0.
    fn entries(&self, row: usize, all: usize) -> std::ops::Range<usize> {
        let from = row * self.row_entries;
        from..(from + self.row_entries).min(all)
    }
}

struct Picture<'t> {
    trace: &'t Trace,
    rule_lines: &'t [usize],
    layout: Layout,
    svg: String,
}

impl Picture<'_> {
    fn put(&mut self, element: impl Display) {
        writeln!(self.svg, "{element}").expect("a string takes any text");
    }

    fn head(&mut self, title: &str) {
        let Layout { width, height, .. } = self.layout;
        self.put(format_args!(
            "<svg xmlns=\"http://www.w3.org/2000/svg\" viewBox=\"0 0 {width:.0} {height:.0}\" \
             width=\"{width:.0}\" height=\"{height:.0}\" \
             role=\"img\" aria-label=\"units over time\" font-family=\"DejaVu Sans, Verdana, Arial, sans-serif\" font-size=\"13\" fill=\"{INK}\">"
        ));
        self.put(DEFINITIONS);
        self.put("<rect width=\"100%\" height=\"100%\" fill=\"white\"/>");
        let room = ((width - 40.0) / 9.5) as usize;
        let title = escaped(&shortened(title, room));
        self.put(format_args!(
            "<text x=\"20\" y=\"28\" font-size=\"16\" font-weight=\"bold\">{title}</text>"
        ));
        let closing = closing(self.trace);
        let shares = self.shares();
        self.put(format_args!(
            "<text x=\"20\" y=\"50\">{closing}; busy: {shares}</text>"
        ));
    }

    /// The part of the entries that found each unit busy.
    fn shares(&self) -> String {
        let entries = self.trace.steps.len();
        let share = |unit: usize| {
            let busy = |entry: &usize| self.state(unit, *entry).acts();
            let count = (0..entries).filter(busy).count();
            format!(
                "unit {unit} {} %",
                (count * 100 + entries / 2) / entries.max(1)
            )
        };
        let shares: Vec<String> = (0..self.trace.units).map(share).collect();
        shares.join(", ")
    }

    fn row(&mut self, row: usize) {
        let entries = self.layout.entries(row, self.trace.steps.len());
        for unit in 0..self.trace.units {
            self.label(row, unit);
            self.states(row, unit, entries.clone());
            if self.layout.places {
                self.places(row, unit, entries.clone());
            }
        }
        if self.layout.cell >= OWN_CELL {
            for entry in entries.clone() {
                self.cell(row, entry);
            }
        }
        for entry in entries.clone() {
            self.arrow(row, entry);
        }
        self.axis(row, entries);
    }

    fn label(&mut self, row: usize, unit: usize) {
        let y = self.layout.lane(row, unit) + LANE / 2.0 + 4.5;
        let x = LEFT - 10.0;
        self.put(format_args!(
            "<text x=\"{x}\" y=\"{y}\" text-anchor=\"end\" font-weight=\"bold\">unit {unit}</text>"
        ));
    }

    /// The state in which an entry meets a unit.
    fn state(&self, unit: usize, entry: usize) -> State {
        match entry.checked_sub(1) {
            Some(before) => self.trace.steps[before].states[unit],
            None if unit == 0 => State::Busy,
            None => State::Idle,
        }
    }

    /// Neighbouring entries of one state are one box.
    fn states(&mut self, row: usize, unit: usize, entries: std::ops::Range<usize>) {
        let mut from = entries.start;
        for entry in entries.clone() {
            let state = self.state(unit, from);
            let last = entry + 1 == entries.end;
            if last || self.state(unit, entry + 1) != state {
                self.state_box(row, unit, state, from..entry + 1);
                from = entry + 1;
            }
        }
    }

    /// A place in the queue is written once for neighbouring entries.
    fn places(&mut self, row: usize, unit: usize, entries: std::ops::Range<usize>) {
        let mut from = entries.start;
        for entry in entries.clone() {
            let place = self.trace.place(unit, from);
            let last = entry + 1 == entries.end;
            if last || self.trace.place(unit, entry + 1) != place {
                let width = (entry + 1 - from) as f64 * self.layout.cell;
                if let (Some(place), true) = (place, width >= PLACE_WIDTH) {
                    let (x, y) = (self.layout.x(row, from), self.layout.lane(row, unit));
                    self.put(place_number(place, x + 2.0, y + 7.0));
                }
                from = entry + 1;
            }
        }
    }

    fn state_box(&mut self, row: usize, unit: usize, state: State, of: std::ops::Range<usize>) {
        let y = self.layout.lane(row, unit);
        let x = self.layout.x(row, of.start);
        let width = of.len() as f64 * self.layout.cell;
        let (fill, top, height) = match state {
            State::Busy => (BUSY, y, LANE),
            State::Helping => (BUSY, y, LANE - STRIP),
            State::Waiting => return self.hatched(x, y + 4.0, width, LANE - 8.0),
            State::Idle => (IDLE, y + LANE / 2.0 - 1.0, 2.0),
        };
        self.put(format_args!(
            "<rect x=\"{x:.2}\" y=\"{top:.1}\" width=\"{width:.2}\" height=\"{height}\" fill=\"{fill}\"/>"
        ));
        if state == State::Helping {
            self.hatched(x, y + LANE - STRIP, width, STRIP);
        }
    }

    fn hatched(&mut self, x: f64, y: f64, width: f64, height: f64) {
        self.put(format_args!(
            "<rect x=\"{x:.2}\" y=\"{y:.1}\" width=\"{width:.2}\" height=\"{height}\" fill=\"url(#waits)\" stroke=\"{WAITS}\"/>"
        ));
    }

    /// How much of the lane is left to the work of a unit that an entry meets.
    fn work_height(&self, unit: usize, entry: usize) -> f64 {
        match self.state(unit, entry) {
            State::Helping => LANE - STRIP,
            _ => LANE,
        }
    }

    /// The entry's own cell, in the lane of the unit that acts.
    fn cell(&mut self, row: usize, entry: usize) {
        let step = &self.trace.steps[entry];
        let cell = self.layout.cell;
        let (x, y) = (self.layout.x(row, entry), self.layout.lane(row, step.unit));
        let height = self.work_height(step.unit, entry);
        let middle = (x + cell / 2.0, y + height / 2.0);
        let title = self.cell_title(entry, step);
        let drawn = match step.deed {
            Deed::Nothing => lost(middle, cell),
            _ => {
                let gap = if cell >= 6.0 { 0.5 } else { 0.0 };
                let (x, width) = (x + gap, cell - 2.0 * gap);
                let fill = acting_fill(&step.deed);
                format!(
                    "<rect x=\"{x:.2}\" y=\"{y}\" width=\"{width:.2}\" height=\"{height}\" fill=\"{fill}\"/>{}",
                    letter(&step.deed, middle, cell)
                )
            }
        };
        self.put(format_args!("<g><title>{title}</title>{drawn}</g>"));
    }

    fn cell_title(&self, entry: usize, step: &Step) -> String {
        let change = change(step, self.state(step.unit, entry), self.rule_lines);
        escaped(&format!(
            "entry {}, unit {}: {} {change}",
            entry + 1,
            step.unit,
            order(&step.deed)
        ))
    }

    /// A granted FORK and an EXIT lead from the acting unit to another: from
    /// its work, a FORK to the other's work and an EXIT to the other's JOIN.
    fn arrow(&mut self, row: usize, entry: usize) {
        let step = &self.trace.steps[entry];
        let (to, class, height) = match step.deed {
            Deed::Fork(Some(unit)) => (unit, "fork", self.work_height(unit, entry + 1)),
            Deed::Exit { unit, .. } => (unit, "exit", LANE),
            _ => return,
        };
        let x = self.layout.x(row, entry) + self.layout.cell;
        let from = self.work_height(step.unit, entry);
        let (start, end) = (self.layout.lane(row, step.unit), self.layout.lane(row, to));
        let (y1, y2) = match step.unit < to {
            true => (start + from - 4.0, end + 1.0),
            false => (start + 4.0, end + height - 1.0),
        };
        let thin = self.layout.cell < OWN_CELL;
        self.put(arrow(class, x, y1, y2, thin));
    }

    fn axis(&mut self, row: usize, entries: std::ops::Range<usize>) {
        let y = self.layout.lane(row, self.trace.units) - LANE_GAP + 8.0;
        let (from, to) = (
            self.layout.x(row, entries.start),
            self.layout.x(row, entries.end),
        );
        self.put(format_args!(
            "<path d=\"M{from:.1} {y}H{to:.1}\" stroke=\"{INK}\"/>"
        ));
        let every = tick(self.layout.cell);
        for entry in (entries.start..=entries.end).filter(|entry| entry % every == 0) {
            let x = self.layout.x(row, entry);
            self.put(format_args!(
                "<path d=\"M{x:.1} {y}v5\" stroke=\"{INK}\"/>\
                 <text x=\"{x:.1}\" y=\"{}\" font-size=\"11\" text-anchor=\"middle\">{entry}</text>",
                y + 17.0
            ));
        }
        let x = LEFT - 22.0;
        self.put(format_args!(
            "<text x=\"{x}\" y=\"{}\" font-size=\"11\" text-anchor=\"end\">entries</text>",
            y + 17.0
        ));
    }

    // -----------------------------------------------------------------------
    // The legend

    fn legend(&mut self) {
        let y = self.layout.legend;
        let own_cells = self.layout.cell >= OWN_CELL;
        self.legend_box(20.0, y, BUSY, "busy");
        self.put(format_args!(
            "<rect x=\"110\" y=\"{}\" width=\"28\" height=\"12\" fill=\"url(#waits)\" stroke=\"{WAITS}\"/>\
             <text x=\"146\" y=\"{}\">waits at a JOIN</text>\
             <rect x=\"280\" y=\"{}\" width=\"28\" height=\"2\" fill=\"{IDLE}\"/>\
             <text x=\"316\" y=\"{}\">idle</text>",
            y + 1.0,
            y + 12.0,
            y + 7.0,
            y + 12.0
        ));
        self.put(arrow("fork", 390.0, y - 4.0, y + 18.0, false));
        self.put(arrow("exit", 560.0, y + 18.0, y - 4.0, false));
        self.put(format_args!(
            "<text x=\"404\" y=\"{0}\">FORK lends a part</text>\
             <text x=\"574\" y=\"{0}\">EXIT gives it back</text>",
            y + 12.0
        ));
        let mut y = y + 30.0;
        if self.layout.helping {
            self.helping_legend(y);
            y += HELPING_LEGEND;
        }
        if self.layout.places {
            self.places_legend(y);
            y += PLACES_LEGEND;
        }
        if own_cells {
            self.cell_legend(y);
        }
    }

    fn helping_legend(&mut self, y: f64) {
        self.put(format_args!(
            "<rect x=\"20\" y=\"{y}\" width=\"28\" height=\"10\" fill=\"{BUSY}\"/>"
        ));
        self.hatched(20.0, y + 10.0, 28.0, 6.0);
        self.put(format_args!(
            "<text x=\"56\" y=\"{}\">helps: busy with another unit's part, above its own JOIN</text>",
            y + 12.0
        ));
    }

    fn places_legend(&mut self, y: f64) {
        self.put(format_args!(
            "<rect x=\"20\" y=\"{}\" width=\"28\" height=\"2\" fill=\"{IDLE}\"/>{}\
             <text x=\"56\" y=\"{}\">place among the units that are not busy, the one idle longest first: a FORK takes number 1</text>",
            y + 9.0,
            place_number(1, 22.0, y + 6.0),
            y + 12.0
        ));
    }

    fn cell_legend(&mut self, y: f64) {
        self.legend_box(20.0, y, ACTS, "the entry's unit acts");
        self.legend_box(230.0, y, REWRITES, "it rewrites");
        let circle = lost((394.0, y + 7.0), 12.0);
        self.put(format_args!(
            "{circle}<text x=\"416\" y=\"{}\">entry for a unit that is not busy</text>",
            y + 12.0
        ));
        if self.layout.cell >= LETTER_CELL {
            let orders = "V VISIT, F FORK, J JOIN, E EXIT, W WHOLE, S SLEEP, B BINGO";
            let y = y + 42.0;
            self.put(format_args!("<text x=\"20\" y=\"{y}\">{orders}</text>"));
        }
    }

    fn legend_box(&mut self, x: f64, y: f64, fill: &str, name: &str) {
        self.put(format_args!(
            "<rect x=\"{x}\" y=\"{y}\" width=\"28\" height=\"14\" fill=\"{fill}\"/>\
             <text x=\"{}\" y=\"{}\">{name}</text>",
            x + 36.0,
            y + 12.0
        ));
    }
}

/// White around it keeps it legible over a lane.
fn place_number(place: usize, x: f64, y: f64) -> String {
    format!(
        "<text class=\"place\" x=\"{x:.2}\" y=\"{y:.1}\" font-size=\"10\" stroke=\"white\" stroke-width=\"3\" paint-order=\"stroke\">{place}</text>"
    )
}

const DEFINITIONS: &str = "<defs>\
<pattern id=\"waits\" width=\"6\" height=\"6\" patternUnits=\"userSpaceOnUse\" patternTransform=\"rotate(45)\">\
<rect width=\"6\" height=\"6\" fill=\"#fff4dc\"/><rect width=\"2.5\" height=\"6\" fill=\"#e69f00\"/></pattern>\
<marker id=\"fork\" viewBox=\"0 0 10 10\" refX=\"9\" refY=\"5\" markerWidth=\"9\" markerHeight=\"9\" \
markerUnits=\"userSpaceOnUse\" orient=\"auto\"><path d=\"M0 0L10 5L0 10z\" fill=\"#00664b\"/></marker>\
<marker id=\"exit\" viewBox=\"0 0 10 10\" refX=\"9\" refY=\"5\" markerWidth=\"9\" markerHeight=\"9\" \
markerUnits=\"userSpaceOnUse\" orient=\"auto\"><path d=\"M0 0L10 5L0 10z\" fill=\"#882255\"/></marker></defs>";

fn acting_fill(deed: &Deed) -> &'static str {
    match deed {
        Deed::Rewrite(_) => REWRITES,
        _ => ACTS,
    }
}

/// The order's first letter, where there is room for it.
fn letter(deed: &Deed, (x, y): (f64, f64), cell: f64) -> String {
    if cell < LETTER_CELL {
        return String::new();
    }
    let fill = if acting_fill(deed) == ACTS {
        "white"
    } else {
        INK
    };
    let letter = &order(deed)[..1];
    format!(
        "<text x=\"{x:.1}\" y=\"{:.1}\" font-size=\"11\" text-anchor=\"middle\" fill=\"{fill}\">{letter}</text>",
        y + 4.0
    )
}

fn lost((x, y): (f64, f64), cell: f64) -> String {
    let radius = (cell / 2.0 - 0.8).clamp(1.0, 3.5);
    format!(
        "<circle cx=\"{x:.2}\" cy=\"{y:.1}\" r=\"{radius}\" fill=\"white\" stroke=\"#666666\"/>"
    )
}

/// A white seam keeps the arrow apart from the lanes that it crosses.
fn arrow(class: &str, x: f64, y1: f64, y2: f64, thin: bool) -> String {
    let (colour, dashes) = match class {
        "fork" => (FORK, ""),
        _ => (EXIT, " stroke-dasharray=\"4 2\""),
    };
    let path = format!("<path d=\"M{x:.2} {y1:.1}V{y2:.1}\"");
    if thin {
        return format!("{path} stroke=\"{colour}\" stroke-width=\"0.6\" opacity=\"0.6\"/>");
    }
    format!(
        "{path} stroke=\"white\" stroke-width=\"4\"/>\
         {path} stroke=\"{colour}\" stroke-width=\"1.8\"{dashes} marker-end=\"url(#{class})\"/>"
    )
}

/// Entries between two numbers of the axis, at least 44 pixels apart.
fn tick(cell: f64) -> usize {
    (0..)
        .flat_map(|power| [1, 2, 5].map(|first: usize| first * 10usize.pow(power)))
        .find(|entries| *entries as f64 * cell >= 44.0)
        .expect("some step is wide enough")
}

fn shortened(text: &str, room: usize) -> String {
    match text.chars().count() > room {
        true => text.chars().take(room).chain(['…']).collect(),
        false => text.to_owned(),
    }
}

fn escaped(text: &str) -> String {
    text.replace('&', "&amp;")
        .replace('<', "&lt;")
        .replace('>', "&gt;")
}
