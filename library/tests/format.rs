//! The tables and examples of docs/FORMAT.md, held to the engine.

mod common;

use std::fs;

use common::*;
use kurvneist::{
    charge, reduce_lines, round_robin, strict_book, written_book, Batch, Ending, Engine, Fees,
    Points, Posting, Refusal, Request, Stop, BOUND_ENTRIES, LARGEST_AMOUNT, LONGEST_BOOK,
    LONGEST_RECORD, MOST_OWNERS, NET_LENGTH, OUTPUT_LENGTH, POINTS_LENGTH, WHOLE, WORK_LENGTH,
};

fn format() -> String {
    fs::read_to_string("../docs/FORMAT.md").unwrap()
}

/// The block that is marked by this word.
fn block<'a>(format: &'a str, word: &str) -> &'a str {
    let (_, rest) = format.split_once(&format!("```{word}\n")).expect(word);
    rest.split_once("```").unwrap().0
}

/// The cells of each row of the table with this head, without the marks of code.
fn table(format: &str, head: &str) -> Vec<Vec<String>> {
    let (_, rest) = format.split_once(head).expect(head);
    let rows = rest.lines().skip(2).take_while(|row| row.starts_with('|'));
    let cells = |row: &str| {
        let cells = row.trim_matches('|').split(" | ");
        cells
            .map(|cell| cell.trim().replace('`', ""))
            .collect::<Vec<_>>()
    };
    rows.map(cells).collect()
}

fn bytes(hexadecimal: &str) -> Vec<u8> {
    let digits = hexadecimal.split_whitespace();
    digits
        .map(|digits| u8::from_str_radix(digits, 16).expect(digits))
        .collect()
}

/// `7 to 9` or `7`, in this base, as the first and the last.
fn range(words: &str, base: u32) -> (usize, usize) {
    let (first, last) = words.split_once(" to ").unwrap_or((words, words));
    let number = |digits| usize::from_str_radix(digits, base).expect(words);
    (number(first), number(last))
}

#[test]
fn the_book_bit_by_bit() {
    let format = format();
    let book = bytes(block(&format, "book"));
    assert_eq!(book, book_p());
    check_bits(&book, &table(&format, "| Bits | Are | Value | Say |"));
}

#[test]
fn the_dated_book_bit_by_bit() {
    let format = format();
    let book = bytes(block(&format, "dated"));
    let constants = [(0, None); 3];
    let rules: [(u16, Rule); 2] = [(100, (&[op(0)], &[op(1)])), (283, (&[op(0)], &[op(2)]))];
    assert_eq!(book, dated_book(&constants, &rules));
    assert!(format.contains(&format!("The book has {} bytes", book.len())));
    let head = "| Bits | Are | Value | Say, of the dated book |";
    check_bits(&book, &table(&format, head));
    let rows = table(&format, "| On day | `00` is posted as |");
    assert_eq!(rows.len(), 5);
    for row in rows {
        let request = Request::new(&book, &[0]).day(row[0].parse().unwrap());
        let mut engine = Engine::new();
        let posting = engine.post(&request.schedule(&[0; 9])).unwrap();
        assert_eq!(posting.term, bytes(&row[1]), "{row:?}");
    }
}

fn check_bits(book: &[u8], rows: &[Vec<String>]) {
    let mut bits = String::new();
    for row in rows {
        let [place, are, value, _] = &row[..] else {
            panic!("{row:?}")
        };
        assert_eq!(
            range(place, 10),
            (bits.len(), bits.len() + are.len() - 1),
            "{row:?}"
        );
        assert_eq!(u16::from_str_radix(are, 2), value.parse(), "{row:?}");
        bits.push_str(are);
    }
    let packed: String = book.iter().map(|byte| format!("{byte:08b}")).collect();
    assert_eq!(bits, packed);
}

#[test]
fn written_books() {
    let rows = table(&format(), "| Read | Written | The book |");
    assert_eq!(rows.len(), 2);
    for row in rows {
        assert_eq!(written_book(&bytes(&row[0])), Ok(bytes(&row[1])));
    }
    // The two strategies that it settles.
    let written = |arity, items: &[u8]| written_book(&book(&[(arity, Some(items))], &[]));
    assert_eq!(
        written(2, &[8, 1, 1, 9, 8, 9, 2, 0]),
        written(2, &[1, 2, 0])
    );
    assert_eq!(written(1, &[1, 0, 1, 0]), written(1, &[1, 0]));
}

#[test]
fn a_strict_book_and_one_that_is_not() {
    let format = format();
    assert_eq!(strict_book(&bytes(block(&format, "book"))), Ok(()));
    let overlapping = bytes(block(&format, "overlapping"));
    assert!(format.contains(&format!("it has {} bytes", overlapping.len())));
    let (end, tick, both) = (op(0), op(1), op(2));
    let rules: [Rule; 3] = [
        (&[both, end, Y], &[Y]),
        (&[both, tick, X, Y], &[tick, both, X, Y]),
        (&[both, X, end], &[X]),
    ];
    let operators: [Operator; 3] = [(0, None), (1, None), (2, Some(&[8, 1, 2, 9, 0]))];
    assert_eq!(overlapping, book(&operators, &rules));
    let fault = strict_book(&overlapping).unwrap_err();
    assert_eq!(fault.refusal.number(), 25);
    assert_eq!(fault.pair, Some([0, 2]));
    assert!(format.contains("refused by 25 with the rules 0 and 2"));
    let dated = strict_book(&bytes(block(&format, "dated"))).unwrap_err();
    assert_eq!((dated.refusal.number(), dated.pair), (24, None));
}

/// S, F and what comes of them, for each line of the table.
#[test]
fn lines_have_their_bounds() {
    let format = format();
    let book = bytes(block(&format, "book"));
    let head = "| Line | S | F | S + 3 × F | S + 4 × F | Entries for two units | Used by two units in turn |";
    let rows = table(&format, head);
    assert_eq!(rows.len(), 3);
    for row in rows {
        let line = bytes(&row[0]);
        let request = Request::new(&book, &line).units(2).budget(9);
        let mut engine = Engine::new();
        let enough = engine.bound(&request).unwrap().told().unwrap();
        let schedule = enough.schedule(2);
        let answer = engine.post(&request.schedule(&schedule)).unwrap().answer;
        assert_eq!(answer.ending, Ending::Finished);
        let told = [
            enough.orders,
            enough.forks,
            enough.most_orders(),
            enough.rounds(),
            enough.entries(2),
            answer.entries,
        ];
        assert_eq!(row[1..], told.map(|number| number.to_string()), "{row:?}");
    }
}

/// The run that carries out S + 3 × F orders.
#[test]
fn the_bound_is_sharp() {
    let format = format();
    let book = bytes(block(&format, "book"));
    let schedule = bytes(block(&format, "sharp"));
    let request = Request::new(&book, &[2, 0, 0]).units(2).budget(9);
    let mut engine = Engine::new();
    let enough = engine.bound(&request).unwrap().told().unwrap();
    assert_eq!(enough.most_orders(), schedule.len() as u64);
    let answer = engine.post(&request.schedule(&schedule)).unwrap().answer;
    assert_eq!((answer.ending, answer.entries), (Ending::Finished, 13));
    assert!(format.contains("each of these 13 entries carries out an order"));
}

/// What is answered where one unit doesn't finish, and the most that can be told.
#[test]
fn bounds_that_are_not_known() {
    let format = format();
    let rows = table(&format, "| One unit ends | Then S and F are | Since |");
    let endings: Vec<String> = (0..4).map(|number: u8| number.to_string()).collect();
    let numbers: Vec<String> = rows.iter().map(|row| row[0].clone()).collect();
    assert_eq!(numbers, endings);
    for row in &rows {
        let known = row[0] == Ending::Finished.number().to_string();
        assert_eq!(
            row[1],
            ["not known, and 0", "both known"][usize::from(known)]
        );
    }
    let shown = |number: usize| format!("{},{:03}", number / 1000, number % 1000);
    for most in [BOUND_ENTRIES, 5 * BOUND_ENTRIES] {
        assert!(format.contains(&shown(most)), "{most}");
    }
}

fn page_of(posting: &Posting) -> String {
    let answer = posting.answer;
    let symbols = posting.term.iter().map(|symbol| format!(" {symbol}"));
    format!(
        "REDUCE 1\nend {}\nrewrites {}\nentries {}\ngranted {}\nkept {}\nterm{}\n",
        answer.ending.number(),
        answer.rewrites,
        answer.entries,
        answer.granted,
        answer.kept,
        symbols.collect::<String>()
    )
}

/// The gate puts these files through the proved program.
#[test]
fn the_inputs_have_their_pages() {
    check_page("input", "page", "finished");
    check_page("dated-input", "dated-page", "dated");
}

fn check_page(input_word: &str, page_word: &str, example: &str) {
    let format = format();
    let bytes = bytes(block(&format, input_word));
    let mut engine = Engine::new();
    let posting = engine.post(&request_of(&bytes)).unwrap();
    let page = block(&format, page_word);
    assert_eq!(page_of(&posting), page);
    let file = |ending| format!("../examples/{example}.{ending}");
    assert_eq!(fs::read(file("in")).unwrap(), bytes);
    assert_eq!(fs::read_to_string(file("out")).unwrap(), page);
}

fn line_of(text: &[u8]) -> Vec<u8> {
    let book = class_book(&[]);
    let mut engine = Engine::new();
    let posting = engine.post_payee(&Request::new(&book, text)).unwrap();
    posting.term.to_vec()
}

/// The class that the table gives each byte; 0 separates.
fn classes(format: &str) -> [u8; 256] {
    let mut classes = [0; 256];
    for row in table(format, "| Bytes | Class | Are |") {
        let (first_class, last_class) = range(&row[1], 10);
        for words in row[0].split(", ") {
            let (first, last) = range(words, 16);
            for (byte, class) in classes.iter_mut().enumerate().take(last + 1).skip(first) {
                assert_eq!(*class, 0, "{byte:02X} stands twice");
                *class = last_class.min(first_class + byte - first) as u8;
            }
        }
    }
    classes
}

#[test]
fn classes_of_texts() {
    let format = format();
    for (byte, class) in (0..=255).zip(classes(&format)) {
        let due = match class {
            0 => vec![0],
            class => vec![class, 0],
        };
        assert_eq!(line_of(&[byte]), due, "{byte:02X}");
    }
    let example = bytes(block(&format, "text"));
    for text in [&b"Caf\xE9 7"[..], b" CAFE - 7."] {
        assert_eq!(line_of(text), example);
    }
}

#[test]
fn the_lines_have_their_records() {
    let format = format();
    let book = bytes(block(&format, "book"));
    let batch = Batch::new(&book).budget(9).schedule(&[0; 100]);
    let lines = bytes(block(&format, "lines"));
    let (mut work, mut net) = ([0; WORK_LENGTH], [0; NET_LENGTH]);
    let mut answers = [0; 4000];
    let done = reduce_lines(&batch, &lines, &mut work, &mut net, &mut answers).unwrap();
    let records = block(&format, "records");
    assert_eq!(answers[..done.written], bytes(records));
    let lengths: Vec<_> = records.lines().map(|record| bytes(record).len()).collect();
    assert_eq!(lengths, [35, 1, 33]);
    assert!(format.contains("the records of 35, 1 and 33 bytes"));
    let numbers = (done.lines, done.read, done.written, done.stop.number());
    assert_eq!(numbers, (3, 12, 69, 0));
    assert!(format.contains("the numbers 3, 12, 69 and 0"));
}

/// What the run of the example saves, and what it comes to.
#[test]
fn the_run_has_its_point() {
    let format = format();
    let book = bytes(block(&format, "book"));
    let example = bytes(block(&format, "point"));
    let mut engine = Engine::new();
    let mut points = Points::new();
    let request = page(&book, &[0; 3]).units(2);
    engine.park(&request, b"may", &mut points).unwrap();
    assert_eq!(points.bytes()[..example.len()], example);
    assert!(points.bytes()[example.len()..]
        .iter()
        .all(|byte| *byte == 0));
    assert!(format.contains(&format!("begins with these {} bytes", example.len())));
    // What the buffer holds is taken up, whoever wrote it.
    let mut kept = vec![0; POINTS_LENGTH];
    kept[..example.len()].copy_from_slice(&example);
    let mut points = Points::from_bytes(kept).unwrap();
    let schedule = round_robin(2, 31);
    let answer = engine
        .resume(b"may", &schedule, &mut points)
        .unwrap()
        .answer;
    assert_eq!(answer.ending, Ending::Finished);
    assert_eq!(
        (answer.rewrites, answer.entries, answer.granted),
        (2, 34, 2)
    );
    assert!(format.contains("finishes with 2 rewrites, 34 entries and 2 FORKs granted"));
}

/// What the rows say of a posting by itself is charged to the posting of the page's line too.
#[test]
fn amounts_have_their_fees_and_parts() {
    let format = format();
    let rates = bytes(block(&format, "rates"));
    let fees = Fees::new(&rates, &[3333, 3333, 3334]);
    assert!(format.contains("owners of the shares 3333, 3333 and 3334"));
    let rows = table(&format, "| Amount | Fee | Parts | Since |");
    assert_eq!(rows.len(), 6);
    let book = bytes(block(&format, "book"));
    let request = page(&book, &[0; 29]);
    for row in rows {
        let amount = row[0].parse().unwrap();
        let charged = charge(&[1, 1, 0], &fees, amount).unwrap();
        assert_eq!(charged.fee.to_string(), row[1], "{row:?}");
        let parts: Vec<String> = charged.parts().iter().map(i64::to_string).collect();
        assert_eq!(parts.join(" "), row[2], "{row:?}");
        let mut engine = Engine::new();
        let settled = engine.settle(&request, &fees, amount).unwrap();
        assert_eq!(settled.posting.term, [1, 1, 0]);
        assert_eq!(settled.charge, Some(charged));
    }
}

/// What the page says of faults of a charge that are near each other.
#[test]
fn which_fault_of_a_charge_is_told() {
    let told = |posting: &[u8], rates: &[u8], shares: &[u16], amount| {
        charge(posting, &Fees::new(rates, shares), amount).unwrap_err()
    };
    let far = LARGEST_AMOUNT + 1;
    assert_eq!(told(&[], &[], &[], far), Refusal::AmountOutOfRange);
    assert_eq!(told(&[], &[0, 0], &[WHOLE], 1), Refusal::BadRateOrShares);
    assert_eq!(told(&[0], &[0], &[WHOLE], 1), Refusal::BadRateOrShares);
    assert_eq!(
        told(&[0], &[0, 0], &[65_535, 10_001], 1),
        Refusal::BadRateOrShares
    );
}

/// The widths of a run's record, which its rows say, and its longest.
#[test]
fn the_record_field_by_field() {
    let rows = table(&format(), "| Bytes of a record | Hold |");
    let widths = rows[1..].iter().map_while(|row| row[0].parse().ok());
    let widths: Vec<usize> = widths.collect();
    assert_eq!(widths, [1, 1, 4, 8, 8, 8, 2]);
    assert_eq!(widths.iter().sum::<usize>() + 1024, LONGEST_RECORD);
}

#[test]
fn stops_by_number_and_name() {
    let rows = table(&format(), "| Stop | | |");
    assert_eq!(rows.len(), (0..).map_while(Stop::new).count());
    for (number, row) in (0..).zip(rows) {
        let stop = Stop::new(number).unwrap();
        let name = format!("{stop:?}").to_lowercase();
        assert_eq!(row[..2], [number.to_string(), name]);
    }
}

#[test]
fn endings_by_number_and_name() {
    let rows = table(&format(), "| Ending | | |");
    assert_eq!(rows.len(), (0..).map_while(Ending::new).count());
    for (number, row) in (0..).zip(rows) {
        let ending = Ending::new(number).unwrap();
        assert_eq!(row[..2], [number.to_string(), ending.to_string()]);
    }
}

#[test]
fn refusals_by_number_name_and_condition() {
    let rows = table(&format(), "| Number | Rust | C | Condition |");
    assert_eq!(rows.len(), Refusal::ALL.len());
    for (row, refusal) in rows.iter().zip(Refusal::ALL) {
        let due = [
            refusal.number().to_string(),
            format!("{refusal:?}"),
            refusal.condition().to_owned(),
        ];
        assert_eq!([&row[0], &row[1], &row[3]], due.each_ref());
        // That the name in C has this number is seen in tests/c.rs.
        let words = row[2].trim_start_matches("KURVNEIST").replace('_', "");
        assert_eq!(words, row[1].to_uppercase());
    }
}

/// What the page says of faults that are near each other, and the order of its table of places.
#[test]
fn which_fault_is_told() {
    let told = |book: &[u8], line: &[u8], units, schedule: &[u8]| {
        let request = Request::new(book, line).units(units).schedule(schedule);
        Engine::new()
            .post(&request)
            .map_or_else(|x| x, |_| panic!("accepted"))
    };
    let sound = book_p();
    let two = [(0, None), (1, None)];
    let rule = |left: &[Symbol], right: &[Symbol]| book(&two, &[(left, right)]);
    assert_eq!(told(&[], &[], 0, &[9]), Refusal::BadUnits);
    assert_eq!(told(&[], &[], 1, &[9]), Refusal::BookRunsOut);
    assert_eq!(told(&[0], &[], 1, &[9]), Refusal::BookRunsOut);
    assert_eq!(told(&[0, 0], &[], 1, &[9]), Refusal::NoOperator);
    assert_eq!(told(&sound, &[255; 1025], 1, &[9]), Refusal::LineTooLong);
    assert_eq!(told(&sound, &[0, 255], 1, &[9]), Refusal::LineIsNoTerm);
    assert_eq!(
        told(&sound, &[2, 255], 1, &[9]),
        Refusal::UnknownOperatorInLine
    );
    assert_eq!(told(&sound, &[0], 1, &[9]), Refusal::UnknownUnitInSchedule);
    // Operator 2 is not there, at the 64th place.
    let chain = |last: u8| [vec![op(1); 63], vec![op(last)]].concat();
    assert_eq!(
        told(&rule(&chain(2), &[]), &[], 1, &[]),
        Refusal::UnknownOperatorInRule
    );
    assert_eq!(
        told(&rule(&chain(1), &[]), &[], 1, &[]),
        Refusal::SideTooLong
    );
    assert_eq!(
        told(&rule(&[X], &[]), &[], 1, &[]),
        Refusal::LeftSideIsVariable
    );
    // A group that is still open at the end.
    let open = book(&[(1, Some(&[8, 1]))], &[]);
    assert_eq!(told(&open, &[], 1, &[]), Refusal::BadStrategy);
}

#[test]
fn lengths() {
    let format = format();
    for length in [
        WORK_LENGTH,
        NET_LENGTH,
        OUTPUT_LENGTH,
        40_962,
        LONGEST_BOOK,
        LONGEST_RECORD,
        32_768,
        POINTS_LENGTH,
    ] {
        let shown = format!("{},{:03}", length / 1000, length % 1000);
        assert!(format.contains(&shown), "{shown}");
    }
    assert_eq!(
        (LARGEST_AMOUNT, WHOLE, MOST_OWNERS),
        (1_000_000_000_000, 10_000, 16)
    );
    for shown in [
        "from -1,000,000,000,000 to 1,000,000,000,000",
        "The shares total 10,000",
        "1 to 16 owners",
    ] {
        assert!(format.contains(shown), "{shown}");
    }
}

#[test]
fn those_who_need_it_are_led_to_it() {
    for file in ["../README.md", "include/kurvneist.h", "src/lib.rs"] {
        let text = fs::read_to_string(file).unwrap();
        assert!(text.contains("docs/FORMAT.md"), "{file}");
    }
}
