//! The help, made from the table of commands.

use std::fmt::Write;

use crate::cli::options::{Command, COMMANDS};
use crate::schedule;

pub const STATUS: &str = "\
Exit status
  0  done; in post, bound, resume, explain, trace, batch and fees: every run
     finished, or the reader of the postings went away, as head does, but not in
     resume
  1  a line or a name was refused, mistyped, or its run didn't finish; in bound,
     that of one unit, so that it is not known how long a schedule suffices
  2  the command line is wrong
  3  a book is mistaken or refused, has a warning in check --strict, or isn't
     admitted by check --strict-profile; a fee table or owners' shares are
     mistaken; points finds a broken rule; or a file can't be used
  4  a trace, explanation, profile or list of points differs from the engine, or
     a text from its book
";

const FORM: &str = "\
The text form of a book

  book      = { statement }
  statement = 'op' operator { operator } '/' arity [ strategy ]
            | 'op' 'letters'
            | 'var' name { name }
            | 'rule' term '=' term
            | 'from' day
  operator  = name | '\"' character '\"'
  strategy  = '(' { item | '{' { item } '}' } ')'
  term      = name [ ':' number ] | name '(' term { ',' term } ')'
            | string [ '(' term ')' ]

  # begins a comment, up to the end of the line; lines break anywhere between
  words. For example:

  op end/0
  op tick/1
  op both/2 ({1 2} 0)
  var X Y
  rule both(end, Y) = Y
  rule both(tick(X), Y) = tick(both(X, Y))

  op        declares operators, numbered from 0 as they come, at most 255.
  letters   op letters comes before all other operators and declares those of
            payees' texts: 0 is the constant end; with one argument, 1 to 26
            are a to z, 27 to 31 æ ð ø þ ß, 32 to 41 the digits 0 to 9, and 42
            is _, for what separates words. In a book with letters, a character
            of a string that no operator is named by is the letter of its
            class, as in a text: É is e, and - is _.
  arity     0 to 7.
  strategy  item 0 is the whole term, 1 to 7 an argument, { } a group of
            arguments. It is empty or ends in 0. Without one, the arguments
            come from the left, then 0. At most 31 items; { and } count.
  var       declares names that stand for variables in every rule.
  rule      rules are tried in the order of the text, at most 255. A side has
            1 to 64 symbols. A rule has at most 16 variables. One that stands
            again on the left matches equal parts only. They are numbered as
            they come there, and X:5 on the left gives X the number 5.
  from      the day of the rules behind it, up to the next from; days may come
            again and in any order. Then the book is dated, and every rule has
            a from before it. A day is a date, as 2026-07-01, or a number: by
            this workbench's convention day 0 is 1970-01-01, and 65535, the
            last, is 2149-06-06. The engine knows numbers only.
  name      letters and digits of any script, and _ ' - . & + in any order, as
            in Müller, 24, rent-2.OG; but not op, var or rule. A name is
            declared once, before or after its uses. from is one where no day
            follows it.
  string    \"abc\"(t) is a(b(c(t))), and \"abc\" alone is a(b(c(end))). A space
            in it is the operator _, and a quote is doubled: \"24\"\" pipe\". A
            character that no name may have is declared in quotes, with arity
            1, as in op \",\" \"/\" \"\"\"\" / 1

  Books and lines are read as UTF-8, or by --encoding as ISO 8859-1 (latin-1) or
  Windows-1252. A letter whose accent stands behind it (NFD) is read as the one
  character that both are, and columns count it once. Lines may end in CR LF.

  A line is a term without variables or, with --payee, a payee's text.

Dated books

  A run by a dated book is on a day, --day, and only the rules that stand on it
  are tried. Rules of later days don't stand. Of rules whose left sides are the
  same up to the variables' names, the one of the latest day stands, and of those
  of that day the last in the book: a rule with a new day replaces the old one,
  which is kept for lines of days before. Rules that stand are tried in the order
  of the book, each at its own place, whatever their days: one for special terms
  comes before one for any. A dated book without --day is not run: postings don't
  depend on the clock. An undated book ignores --day and says so.

Payees' texts

  With --payee a line is taken as it is typed, by a book with letters. It becomes
  the letters and digits of its characters, with one _ for each run of others
  between them, and end: Café Étoile 7 is \"cafe etoile 7\". Capitals are as small
  letters, and accented letters as their base letters; æ, ð, ø, þ and ß are
  letters of their own. A text may have any length, but at most 1,023 letters,
  digits and separating runs. It may have the characters of ISO 8859-1; another
  one, as €, is told with its place.
";

pub const BOOK: &str = "\
Each mistake is told once, with line, column, what was expected, and the number
by which the book's reader would refuse it, if it has one. What is written is
the settled book of the proved writer.
";

pub const TEXT: &str = "\
The text gives that very book again, settled, byte for byte; this is tried before
it is shown. Books keep no names: with --names the operators are called as in
that text, which must declare as many, with the same arities.
";

pub const CHECK: &str = "\
A warning has the form of a mistake, with line and column. Its kinds:
  never-first       rules before it match all that the rule matches
  equal-left        a rule before it has this left side, up to variables' names
  never-tried       the strategy of the left side's operator has no 0
  rewritten-before  a part of the left side, which the strategy visits before 0,
                    is such that a rule always rewrites it: what is left to be
                    matched never has that part
  replaced          in a dated book, a rule of the same day behind it has this
                    left side, up to variables' names: it stands on no day
  same-sides        the right side is the left side
  unused-operator   no rule names it; lines may, so this one is a guess. Those of
                    op letters are left out
  unused-variable   no rule names it
  skipped-argument  a strategy leaves out an argument, which then stays as it is
What is not called a guess is so for every line. Whether several rules together
match all that a later one does is not told where it takes too long to find out.
Of a dated book, what is told of rules is so on every day on which they stand, or
with --day on that day, for the rules that stand on it.

With --strict-profile the proved engine says whether the order of the rules is
free: whether no term that the book's operators form is matched by two rules. If
so, its rules may be put in any order: every line is posted the same, with the
same counts, for the same units and schedule. If not, the first two rules that
match one term are told, and such a term (refusal 25). It is not decided for a
dated book, for one that repeats a variable in a left side, and without an
operator of arity 0; these are told too (refusal 24).

With --json, one object:
  book         the text's name
  errors       how many there are, and so warnings
  order_free   with --strict-profile, true or false
  diagnostics  a list, in the order of the text, of objects with level (error or
               warning), kind, certain (false for a guess), line, column and
               message. A mistake has the kind mistake, and refusal, a number or
               null. What the strict profile tells has the kind strict-profile
               and refusal; of two rules that match one term rules, a list of two
               objects with rule, rule_line and sides, and term.
";

pub const EXPLAIN: &str = "\
Shows each rewrite: the rule by its number and its line in the text, its place in
the term, what its variables stand for, and the term before and after, with the
rewritten part in brackets. The place is the arguments to follow from the root:
2.1 is argument 1 of argument 2, and 1*5 is five times argument 1. The rewrites
come from a plain model; after every rewrite, or after 256 of those of a long
run, its term and counts are compared with what the proved engine answers for the
schedule cut there. Without --schedule, of a run of over 262144 entries the first
32768 are explained. For a dated book, the rules that stand on the day are named,
and of each rule the day from which it holds.

With --json, one object: line, steps, and the fields of post. Each step has
  step, rule, rule_line  numbers from 1; rule_line is null for a packed book.
                         In a dated book, rule_day is the rule's day
  position               a list of arguments' numbers
  sides                  the rule by names
  entry, unit            which entry of the schedule, and its unit
  substitution           a list of objects with variable and term
  part, becomes          the rewritten part before and after
  before, after          the whole term before and after
For a dated book the object has day, a number, date, and standing, a list of the
rules that stand on it. With --rules-only a step ends with position. Where the budget or the room ended the
run, stopped has the rule and rule_line that would have come next.
";

pub const POST: &str = "\
Shows how the run ended (finished, spent, full or cut), the rewrites and entries,
the FORKs that were granted and those that found nobody idle and were kept, and
the term. It is a posting if the run finished; granted and kept together are then
the same for any number of units and any schedule.

With --json, one object: end, rewrites, entries, granted, kept and term, and
instead_of, an ending, if one unit posted in the place of several whose run ended
so; or error, an object with kind (mistyped or refused), column or refusal, and
message. Terms are by names, as in the text.

With --park the run has a name, of 1 to 16 bytes, and if it is cut it is saved in
FILE, to be gone on with by resume: a line parked NAME says so, in JSON the field
parked. FILE has room for eight names and is made if it isn't there. A run of an
old name replaces its point; one that isn't cut leaves FILE as it is. FILE is
written beside and renamed: it is whole, the old one or the new one, also when
the disk is full or the machine stops. If another program changed it meanwhile,
it is left so, and this is told. A name to which no slot is left is refused by
21, and any name by 20 while a point in FILE breaks a rule.
";

pub const BOUND: &str = "\
Says how long a schedule suffices for the line on so many units, whatever their
order. This is proved of the engine: with the same book, line, budget and day, on
any number of units and under any schedule, at most S + 3 x F orders are carried
out, where an entry for an idle unit is none; and S + 4 x F rounds, each naming
every unit, never end cut: they finish, or end full.
  end          how one unit ends, with the same budget
  orders       S, the orders that it carries out, BINGO included
  forks        F, its FORKs
  most-orders  S + 3 x F
  rounds       S + 4 x F
  entries      those of so many rounds: --schedule round-robin:ENTRIES suffices,
               and so does no --schedule, which is sized by this

If one unit does not finish, the rounds are not known, and why is said. Where it
ends spent, no schedule finishes the line within the budget. Where it ends full,
another order of units might keep the limit of 1,024 symbols. Where it ends cut,
it carries out over 65536 orders, which are not tried.

With --json, one object: end, orders, forks, most_orders, rounds, units and
entries; if one unit does not finish, those that are not known are null, and
message says why. A line that is refused or mistyped is told as in post.
";

pub const RESUME: &str = "\
Goes on with a run that post --park saved in FILE, by its own book, day, units
and budget, and shows what post shows; a schedule is one for its units. Without
--schedule these act in turn, for at most 16777216 entries more. Rewrites,
entries and FORKs are those of all parts together: however often it was parked,
the run ends exactly like the unbroken one. If it is cut again, its new point
replaces the old one. At any other ending its point goes away, but only when what
is shown is on standard output, and on the disk if that is a file; so a posting
isn't lost where that is full, or who reads it went away.

Points keep no names of operators: --names takes them from a text, which must
declare as many, with the same arities, as the book of the post has. Without it
they are f0, f1 and so on, or those of letters, if the book has letters' arities.
";

pub const POINTS: &str = "\
A row for each point: its slot, the bytes of its book, the day if that is dated,
units, budget, the entries, rewrites and FORKs granted and kept so far, and the
present term's symbols. Behind them, each rule that a slot breaks is told by its
name and in the words of docs/FORMAT.md; while there is one, every run by FILE is
refused by 20. The rules are looked at by a plain model; that the proved engine
refuses the points exactly if one is broken is tried each time.

With --json, one object: file, errors, points and diagnostics. A point has slot,
name, name_bytes, book_bytes, day, date, units, budget, entries, rewrites,
granted, kept and symbols; name is null where it is no UTF-8, day and date where
the book is undated. Each of diagnostics has slot, name, rule, message and refusal.
";

pub const TRACE: &str = "\
Each entry is a row: the unit, its order, what changed, and the present term with
the order's part in brackets. The orders come from a plain model; after every
entry its term, counts and ending are compared with what the proved engine
answers for the schedule cut there, and a difference stops the trace. The time
for this grows with the square of the entries; --check 100 compares after every
100th entry, and at the end. A part that has no orders left is finished: a later
VISIT of it, or of a copy, is dropped.

The picture has a lane for each unit: a box while it is busy, hatched while it
waits at a JOIN, a thin line while it is idle, with arrows for FORKs and EXITs. A
unit that waits may take a part; its box then stands above a hatched strip, the
JOIN. Of three units or more, those that are not busy are numbered, the one idle
longest 1: a FORK's part goes to it. Each cell says its entry when the pointer
rests on it.
";

const TURNS: &str = "\
Without --schedule the units act in turn, for as many rounds as suffice for the
line (see bound), so that such a run is never cut. It is first made with 32768
entries, which most lines don't need, and again if those are too few. Where it is
not known how many rounds suffice, a run that is cut is made again with 262144,
2097152, at most 16777216 entries. A line that several units then leave full or
cut is posted by one unit, if that finishes it, and this is told. So more units
never make a line fail. A trace shows the several units' run; it has at most
262144 entries, or shows the first 32768.
";

pub const BATCH: &str = "\
Output line k belongs to input line k. It is the posting by names; a blank or
comment line as it was; or ! and why there is no posting:
  ! column 7: 'muller' is unknown; expected an operator that is declared
  ! refused 12: the line has over 1,024 bytes
  ! spent after 1000 rewrites at TERM     (also full, and cut after N entries)
  ! the line has over 1048576 bytes; expected at most so many
A line that can't be posted doesn't stop the others. A summary goes to standard
error, and progress with rate and time left if that is a terminal, but not one
with TERM=dumb; COLUMNS says how wide it is. With --payee too, blank lines and
those that begin with # stay as they are. Each line ends as it did, in LF or
CR LF.

Lines are read, posted and written in blocks, so LINES may have any length. The
book is read once a block, which has at most 256 lines, fewer where they take
long, and only lines that are there already. With -o the postings stand in
FILE.PID-0.part until all are there, and FILE is as it was if the batch is
interrupted. No output may be an input, also not through a link.

With --column, LINES is a bank export (CSV): a record on each line, its fields
between separators. A field in quotes may have separators, line ends and doubled
quotes. A column is given by its name in the header, which is then the first
record, or by its number from 1. With --payee its text is posted as a payee;
without, it is a line, or what --template makes one of:
  --column Payee --template 'line(payee(\"{}\"), purpose(\"{Purpose}\"))'
{} is the text of the column, and {Purpose} or {3} that of another; both stand in
strings, and quotes in them are doubled. {{ and }} are braces. Without --column,
{} is the whole line. Output line k belongs to record k, the header's being a
comment. A record that can't be posted is told with its first line:
  ! line 7: 'Payee', character 3: ISO 8859-1 does not have '€' (U+20AC); ..
  ! line 8: the record has 2 fields; expected 'Purpose' as field 3

With --json, each output line is an object: line, its number from 1, and the
fields of post; a blank or comment line has comment, the text as it was. Of a bank
export it begins with record, its number, and line is the record's first; an error
has field, the column's name, if one is to blame, and column counts its characters.

The profile has a row for each rule, the most used first: its rewrites, the lines
in which it rewrote, and the rule. With --json it is an object with rules, a list
of objects with rule, rule_line, in a dated book rule_day, sides, rewrites and
lines. The engine counts no rules, so each run is made again by the plain model
and compared at its end.
";

pub const FEES: &str = "\
Posts each line as batch does, takes the fee off its amount, at the rate of the
posting's root, and splits the rest among the owners:
  8400-Weiß-2.OG: 940.00 = fee 47.00 + Renée Weiß 558.13 + Erben Blüm 334.87
The engine works in whole cents: a fee's half cent goes away from zero, parts are
cut toward zero, and the cents left go one each to the parts that lost most, the
first of them where they lost as much. A refund's fee and parts are the payment's
with the sign turned. The last line of the output is the sum of what was charged.

TABLE has operators and their rate on each line, in any order; * is every operator
that no line names. A posting whose root has no rate is not charged. OWNERS has a
name and a share on each line, 1 to 16 of them, 100% in all. # begins a comment.
  8400-Weiß-2.OG 8401-Núñez-1.OG  5%            Renée Weiß   62.5%
  70010-König-caretaker           3.50%         Erben Blüm   375/1000
  *                               0%
A rate or a share is a percentage with at most two decimals, or a fraction that is
a whole number of ten-thousandths. Mistakes are told with line and column.

Each line of LINES has an amount and, behind a space, a term or, with --payee, a
payee; the rest is as in batch, also of a bank export, whose amounts stand in the
column --amount. An amount has two decimals, behind a point or a comma. The other
of both may stand between thousands:
  1234.56   1,234.56   1234,56   1.234,56   -180.00   +12,50
So 1,234 and 1.234 are told as mistakes, since each may mean two things, and 180,
which may be cents. An amount has no sign of a currency, and a minus in front only.
What can't be posted or charged is told as in batch, and is in no sum:
  ! column 1: the mark of '1,234' may part thousands or decimals; expected ..
  ! refused 22: the amount is not from -1,000,000,000,000 to 1,000,000,000,000 ..
  ! refused 23: the table has no rate for 'line', at line(payee(Weiß), invoice)

With --json, a posting's object has besides the fields of post: amount and fee, and
parts, a list of objects with owner and part, all in cents. The last line is an
object with sums: postings, amount, fee and parts. An error that is refused by 22
or 23 has term, the posting.
";

pub fn general() -> String {
    let mut text = String::from(
        "kurvneist reduces lines by rule books, with the proved engine.\n\n\
         Usage: kurvneist COMMAND ARGUMENTS [OPTIONS]\n\nCommands\n",
    );
    for command in COMMANDS {
        put(
            &mut text,
            &format!("  {:<9}{}\n", command.name, command.about),
        );
    }
    put(
        &mut text,
        "  help     this text; 'help COMMAND' for one command\n",
    );
    for command in COMMANDS {
        let arguments = arguments(command);
        put(
            &mut text,
            &format!("\nkurvneist {} {arguments}\n", command.name),
        );
        put(&mut text, &options(command));
    }
    put(&mut text, &format!("\n{FORM}\n{}\n{STATUS}", schedules()));
    text
}

/// The help of one command.
pub fn of(command: &Command) -> String {
    let mut text = format!("kurvneist {}: {}\n\n", command.name, command.about);
    put(&mut text, &usage(command));
    for (name, what) in command.arguments {
        put(&mut text, &format!("  {name:<18}{what}\n"));
    }
    put(&mut text, &options(command));
    put(&mut text, &format!("\n{}\n", command.more));
    if command.flags.iter().any(|flag| flag.name == "--schedule") {
        put(&mut text, &format!("{}\n", schedules()));
    }
    put(&mut text, &format!("{FORM}\n{STATUS}"));
    text
}

pub fn usage(command: &Command) -> String {
    let arguments = arguments(command);
    format!("Usage: kurvneist {} {arguments} [OPTIONS]\n", command.name)
}

fn arguments(command: &Command) -> String {
    let names: Vec<&str> = command.arguments.iter().map(|(name, _)| *name).collect();
    names.join(" ")
}

fn options(command: &Command) -> String {
    let mut text = String::new();
    for flag in command.flags {
        let written = format!("{} {}", flag.name, flag.value.unwrap_or(""));
        put(&mut text, &format!("  {written:<18}{}\n", flag.help));
    }
    text
}

fn schedules() -> String {
    format!("Forms of a schedule\n{}\n\n{TURNS}", schedule::FORMS)
}

fn put(text: &mut String, more: &str) {
    write!(text, "{more}").expect("a string takes any text");
}
