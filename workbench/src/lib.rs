//! A workbench for rule books: their text form, lines by name, payees as they
//! are typed, traces and batches, over the proved engine.
//!
//! - `text`: the text form of books: `lexer`, `parser`, `check`, `sides` from
//!   text to book, `printer` from book to text.
//! - `names`, `line`, `letters`, `day`, `schedule`, `mistake`: what the commands
//!   share.
//! - `items`, `encoding`, `compose`, `csv`, `template`: from a file to lines.
//! - `told`, `width`: characters in messages, and the room that they take.
//! - `warnings`: what a book may not mean, and whether its rule order is free.
//! - `trace`: a run entry by entry, as text and as a picture; `explain`: its
//!   rewrites.
//! - `posting`: a line's run, by a given schedule or by as many rounds as suffice.
//! - `points`: runs that were parked, in a file.
//! - `batch`, `lines`, `blocks`, `jobs`, `outcome`, `profile`, `progress`: many
//!   lines against one book.
//! - `fees`: fee tables, owners' shares and amounts as text, and what is charged
//!   to postings.
//! - `output`: files that are whole or not there.
//! - `json`: JSON, written.
//! - `cli`: the commands, their options and help.

pub mod batch;
pub mod blocks;
pub mod cli;
pub mod compose;
pub mod csv;
pub mod day;
pub mod encoding;
pub mod explain;
pub mod fees;
pub mod items;
pub mod jobs;
pub mod json;
pub mod letters;
pub mod line;
pub mod lines;
pub mod mistake;
pub mod names;
pub mod outcome;
pub mod output;
pub mod points;
pub mod posting;
pub mod profile;
pub mod progress;
pub mod schedule;
pub mod template;
pub mod text;
pub mod told;
pub mod trace;
pub mod warnings;
pub mod width;
