/*
 * Kurvneist: reduces lines by rule books on one to eight simulated units.
 *
 * The functions of libkurvneist.a (x86-64), which `tools/build kurvneist` writes. docs/FORMAT.md says what the bytes of
 * a book, a line, a text, a page and a point are, bit by bit, how fees are charged, and in which order faults are refused.
 *
 * Buffers. Each is lent as a pointer and its length in bytes; shares as a pointer and how many there are. A null pointer is
 * taken where the length is 0; answer, done, length, parts, fee, charged and pair are never null. What is written to (work,
 * net, points, output, answers, answer, done, length, parts, fee, charged, pair) overlaps nothing else that is lent. Any
 * bytes, lengths and numbers are fine: what can't be used is refused by number.
 *
 * The functions keep nothing between calls, so several threads may call them, each with buffers of its own.
 */
#ifndef KURVNEIST_H
#define KURVNEIST_H

#include <stddef.h>
#include <stdint.h>

#ifdef __cplusplus
extern "C" {
#endif

/* Bytes of work area, of the net's area and of output that a run asks for; more is fine. */
#define KURVNEIST_WORK_LENGTH 24624
#define KURVNEIST_NET_LENGTH 3840
#define KURVNEIST_OUTPUT_LENGTH 1024

/* No book is longer, and so no written one. */
#define KURVNEIST_LONGEST_BOOK 41473

/* No record of a line among many is longer: 32 bytes and 1,024 symbols. */
#define KURVNEIST_LONGEST_RECORD 1056

/* The most owners, and the elements of their parts. */
#define KURVNEIST_MOST_OWNERS 16

/* The largest amount, and with a minus the smallest, in cents. */
#define KURVNEIST_LARGEST_AMOUNT INT64_C(1000000000000)

/* The highest rate, and the total of the owners' shares, in ten-thousandths. */
#define KURVNEIST_WHOLE 10000

/* Bytes of the buffer of points; more is fine. */
#define KURVNEIST_POINTS_LENGTH 524288

/* The most names at once, and the bytes of the longest name. */
#define KURVNEIST_MOST_NAMES 8
#define KURVNEIST_LONGEST_NAME 16

/* The elements of a pair of rules. */
#define KURVNEIST_PAIR_LENGTH 2

/* The entries of the one-unit run that tells how long a schedule suffices. */
#define KURVNEIST_BOUND_ENTRIES 65536

/*
 * The elements of an answer. They are told by name, since a later version may add some. In a finished run granted and kept
 * together are exactly the FORKs of a one-unit run without symbol limit. In any other ending they are the FORKs so far.
 */
enum kurvneist_answer {
    KURVNEIST_ENDING = 0,   /* an ending's number */
    KURVNEIST_REWRITES = 1, /* rewrites made, at most the budget */
    KURVNEIST_ENTRIES = 2,  /* schedule entries used */
    KURVNEIST_GRANTED = 3,  /* FORKs that found an idle unit */
    KURVNEIST_KEPT = 4,     /* FORKs that found nobody idle */
    KURVNEIST_LENGTH = 5,   /* symbols of the present term, 1 to 1,024 */
    KURVNEIST_ANSWER_LENGTH = 6
};

/* How a run ends. Only a finished run's term is a posting. */
enum kurvneist_ending {
    KURVNEIST_FINISHED = 0, /* nothing is left to do */
    KURVNEIST_SPENT = 1,    /* a rewrite is due and the budget is used up */
    KURVNEIST_FULL = 2,     /* a rewrite is due that would make over 1,024 symbols */
    KURVNEIST_CUT = 3       /* the schedule has no further entry */
};

/* The elements of what says how long a schedule suffices. */
enum kurvneist_bound_answer {
    KURVNEIST_BOUND_ENDING = 0, /* how the one-unit run ended, an ending's number; 0 if S and F are known */
    KURVNEIST_BOUND_ORDERS = 1, /* S: the orders that it carries out, BINGO included; otherwise 0 */
    KURVNEIST_BOUND_FORKS = 2,  /* F: its FORKs; otherwise 0 */
    KURVNEIST_BOUND_LENGTH = 3
};

/* The elements of what many lines are answered. */
enum kurvneist_done {
    KURVNEIST_DONE_LINES = 0,   /* lines done, those in front */
    KURVNEIST_DONE_READ = 1,    /* bytes that they take, with their lengths */
    KURVNEIST_DONE_WRITTEN = 2, /* bytes of their records */
    KURVNEIST_DONE_STOP = 3,    /* a stop's number */
    KURVNEIST_DONE_LENGTH = 4
};

/* Why no more lines were done. */
enum kurvneist_stop {
    KURVNEIST_STOP_END = 0, /* there are none */
    KURVNEIST_STOP_CUT = 1, /* the next line is cut short: its length, or its bytes, run out */
    KURVNEIST_STOP_ROOM = 2 /* the next line is whole, and the longest record would not fit behind the others */
};

/*
 * The refusals. Places are checked in this order: 13; 15, for the work area, then for the net's; 16; the book, 1 to 9; the
 * line, 12, 11, 10, or the text, 19, 18; of a run with a name the points, 16, then 20, then 21; the schedule, 14; of a
 * posting that is charged, 22, then 23. Only the programs tell 17, and only the strict profile 24 and 25, both after the
 * book's own. 6 is given no longer, since a variable that stands again in a left side matches equal parts; it keeps its name
 * for what an earlier version told, and is used for nothing else. A later version may add numbers.
 */
enum kurvneist_refusal {
    KURVNEIST_ACCEPTED = 0,
    /* the book's bits run out */
    KURVNEIST_BOOK_RUNS_OUT = 1,
    /* the book has no operator */
    KURVNEIST_NO_OPERATOR = 2,
    /* a strategy has an item above 9, a group in a group, a close without an open, a 0 in a group, an argument
       above the arity, or a last item that is not 0 */
    KURVNEIST_BAD_STRATEGY = 3,
    /* a rule names an operator that the book does not have */
    KURVNEIST_UNKNOWN_OPERATOR_IN_RULE = 4,
    /* a rule's left side is a variable */
    KURVNEIST_LEFT_SIDE_IS_VARIABLE = 5,
    /* a rule's left side names a variable twice, which is refused no longer */
    KURVNEIST_LEFT_SIDE_REPEATS_VARIABLE = 6,
    /* a rule's right side names a variable that its left side does not */
    KURVNEIST_RIGHT_SIDE_ADDS_VARIABLE = 7,
    /* a rule's side is still incomplete after 64 symbols */
    KURVNEIST_SIDE_TOO_LONG = 8,
    /* a padding bit of the book is 1, or a further byte follows */
    KURVNEIST_BOOK_LEFT_OVER = 9,
    /* the line is empty or incomplete, or has bytes left over */
    KURVNEIST_LINE_IS_NO_TERM = 10,
    /* the line names an operator that the book does not have */
    KURVNEIST_UNKNOWN_OPERATOR_IN_LINE = 11,
    /* the line has over 1,024 bytes */
    KURVNEIST_LINE_TOO_LONG = 12,
    /* the number of units is not 1 to 8 */
    KURVNEIST_BAD_UNITS = 13,
    /* a schedule entry names a unit that is not there */
    KURVNEIST_UNKNOWN_UNIT_IN_SCHEDULE = 14,
    /* the work area has less than 24,624 bytes, or the net's area less than 3,840 */
    KURVNEIST_WORK_TOO_SHORT = 15,
    /* the output is too short: a run needs 1,024 bytes, the writer as many as the written book has; or the buffer of
       points has less than 524,288 */
    KURVNEIST_OUTPUT_TOO_SHORT = 16,
    /* the program's input is cut short, or over 32,768 schedule bytes follow */
    KURVNEIST_BAD_INPUT = 17,
    /* the text's term would have over 1,024 symbols */
    KURVNEIST_TEXT_TOO_LONG = 18,
    /* the book lacks the operators of texts: 0 without arguments, and 1 to 42 with one argument each */
    KURVNEIST_NO_LETTERS = 19,
    /* a point breaks a rule, the name to resume is unknown, or a name has not 1 to 16 bytes */
    KURVNEIST_BAD_POINT_OR_NAME = 20,
    /* a ninth name is given: eight points are there, and none has it */
    KURVNEIST_NINTH_NAME = 21,
    /* the amount is not from -1,000,000,000,000 to 1,000,000,000,000 cents */
    KURVNEIST_AMOUNT_OUT_OF_RANGE = 22,
    /* the root's rate is missing or above 10,000, the owners are not 1 to 16, or their shares do not total 10,000 */
    KURVNEIST_BAD_RATE_OR_SHARES = 23,
    /* the book is dated, a variable is repeated in a left side, or no operator has arity 0 */
    KURVNEIST_OUTSIDE_STRICT_PROFILE = 24,
    /* two of the book's rules match one term */
    KURVNEIST_RULES_OVERLAP = 25
};

/* KURVNEIST_WORK_LENGTH. */
size_t kurvneist_work_length(void);

/* KURVNEIST_NET_LENGTH. */
size_t kurvneist_net_length(void);

/* KURVNEIST_OUTPUT_LENGTH. */
size_t kurvneist_output_length(void);

/*
 * Reduces a line by a book on `units` units, with at most `budget` rewrites, as the schedule says: each of its bytes is
 * the number of the unit that acts next.
 *
 * In `net` the book's left sides are laid out so that the first rule that matches is found without trying one by one.
 *
 * By a dated book, whose first byte is 0, only the rules that stand on `day` are tried. An undated book ignores the day.
 *
 * The result is KURVNEIST_ACCEPTED, 0, or the number of a refusal. `answer` has KURVNEIST_ANSWER_LENGTH elements.
 *
 * After 0 the present term stands at the front of `output`, one byte a symbol, and the output's other bytes are as they
 * were; `work` and `net` are all zero, whatever they held before. After a refusal `answer` is all zero, and `work`, `net`
 * and `output` are as they were.
 */
uint8_t kurvneist_reduce(const uint8_t *book, size_t book_length,
                         const uint8_t *line, size_t line_length,
                         uint8_t units, uint32_t budget, uint16_t day,
                         const uint8_t *schedule, size_t schedule_length,
                         uint8_t *work, size_t work_length,
                         uint8_t *net, size_t net_length,
                         uint8_t *output, size_t output_length,
                         uint64_t *answer);

/*
 * Reduces a payee's text, in ISO 8859-1 and of any length, where kurvneist_reduce takes a term; all else is the same.
 *
 * The text's term has a one-argument operator for each letter and digit, 42 for each run of other bytes between them, none
 * at the ends, and 0, a constant, last:
 *
 *    1 to 26  A to Z, small letters alike, accented letters as their base letters
 *   27 to 30  AE, eth, O with a stroke and thorn (hexadecimal C6, D0, D8, DE; small E6, F0, F8, FE)
 *         31  sharp s (DF)
 *   32 to 41  0 to 9
 *
 * An empty text, and one without letters and digits, is the term 0. The refusals 10, 11 and 12 never come, 18 and 19 only
 * here.
 */
uint8_t kurvneist_payee(const uint8_t *book, size_t book_length,
                        const uint8_t *text, size_t text_length,
                        uint8_t units, uint32_t budget, uint16_t day,
                        const uint8_t *schedule, size_t schedule_length,
                        uint8_t *work, size_t work_length,
                        uint8_t *net, size_t net_length,
                        uint8_t *output, size_t output_length,
                        uint64_t *answer);

/* KURVNEIST_LONGEST_RECORD. */
size_t kurvneist_record_length(void);

/*
 * Reduces many lines by one book, which is read and laid out in `net` once. Each line is answered exactly as
 * kurvneist_reduce answers it by itself, on the same units, with the same budget, day and schedule: nothing of one line
 * reaches the next.
 *
 * In `lines` they stand one after another, each behind its length in two bytes, the high byte first. Each line that is done
 * gets a record in `answers`, one after another from the front:
 *
 *   a refused line  its refusal's number, one byte, never 0: 12, 11 or 10; 14, if the schedule can't be used
 *   a run           one byte 0; the ending's number, one byte; rewrites, four bytes; schedule entries used, FORKs granted
 *                   and FORKs kept, eight bytes each; the present term's length, two bytes; its symbols, one byte each.
 *                   Numbers have the high byte first.
 *
 * A line is done only where KURVNEIST_LONGEST_RECORD bytes are left in `answers`, however short its record will be. `done`
 * has KURVNEIST_DONE_LENGTH elements and says how many lines were done and why no more. After KURVNEIST_STOP_ROOM a caller
 * goes on: the same call with `lines` from the byte KURVNEIST_DONE_READ on, and `answers` with at least
 * KURVNEIST_LONGEST_RECORD bytes, the same buffer once its records are used. So no line is done twice or left out. After
 * KURVNEIST_STOP_CUT the bytes from there on are no whole line; they come again in front of those that are missing.
 *
 * The result is 0, or the refusal's number of the frame or the book: 13; 15; 1 to 5, 7 to 9. An `answers` of any length is
 * fine, so 16 never comes. The book is checked also where there is no line to do.
 *
 * After 0 the bytes of `answers` behind the records are as they were; `work` and `net` are all zero, whatever they held
 * before. After a refusal `done` is all zero, and `work`, `net` and `answers` are as they were.
 */
uint8_t kurvneist_reduce_lines(const uint8_t *book, size_t book_length,
                               const uint8_t *lines, size_t lines_length,
                               uint8_t units, uint32_t budget, uint16_t day,
                               const uint8_t *schedule, size_t schedule_length,
                               uint8_t *work, size_t work_length,
                               uint8_t *net, size_t net_length,
                               uint8_t *answers, size_t answers_length,
                               uint64_t *done);

/*
 * Reduces many payees' texts, as kurvneist_payee does each, where kurvneist_reduce_lines takes terms; all else is the same.
 * A refused text's number is 19, 18 or 14. Behind a length in two bytes a text has at most 65,535 bytes.
 */
uint8_t kurvneist_payee_lines(const uint8_t *book, size_t book_length,
                              const uint8_t *texts, size_t texts_length,
                              uint8_t units, uint32_t budget, uint16_t day,
                              const uint8_t *schedule, size_t schedule_length,
                              uint8_t *work, size_t work_length,
                              uint8_t *net, size_t net_length,
                              uint8_t *answers, size_t answers_length,
                              uint64_t *done);

/*
 * Charges a posting, one byte a symbol, of which the first, its root, counts.
 *
 * In `rates` each operator has its rate from 0 to KURVNEIST_WHOLE, from operator 0 up, in two bytes, the high byte first. The
 * fee is amount * rate / 10,000 in whole cents, halves away from zero. The amount less the fee is split among 1 to
 * KURVNEIST_MOST_OWNERS owners, whose `shares` total KURVNEIST_WHOLE: each part is cut toward zero, and the cents left go one
 * each, with the amount's sign, to the remainders largest in size, the lower owner first where equal. So fee and parts add up
 * to the amount, and what is charged to a refund is what is charged to the payment, with the sign turned.
 *
 * The result is 0, 22 or 23. There are as many `owners` as shares. `parts` has KURVNEIST_MOST_OWNERS elements, `fee` has one.
 *
 * After 0 the owners' parts stand at the front of `parts`, in the order of their shares, and its other elements are as they
 * were. After a refusal `fee` is 0, and `parts` is as it was.
 */
uint8_t kurvneist_charge(const uint8_t *term, size_t term_length,
                         const uint8_t *rates, size_t rates_length,
                         int64_t amount,
                         const uint16_t *shares, size_t owners,
                         int64_t *parts, int64_t *fee);

/*
 * Reduces a line as kurvneist_reduce does, in areas of its own on the stack, and charges its posting as kurvneist_charge does.
 *
 * The result is 0, or the number of a refusal: the run's own, but never 15; then, if the run finished, 22 or 23. A run that
 * doesn't finish is answered as kurvneist_reduce answers it: it has no posting, and amount, rates and shares are not looked
 * at. `charged`, one element, is 1 if the posting was charged and otherwise 0.
 *
 * After 0 the present term stands at the front of `output`, and if the posting was charged, the owners' parts at the front of
 * `parts`; all else of both is as it was. `fee` is 0 where nothing was charged. After a refusal `answer`, `fee` and `charged`
 * are all zero, and `output` and `parts` are as they were.
 */
uint8_t kurvneist_settle(const uint8_t *book, size_t book_length,
                         const uint8_t *line, size_t line_length,
                         uint8_t units, uint32_t budget, uint16_t day,
                         const uint8_t *schedule, size_t schedule_length,
                         const uint8_t *rates, size_t rates_length,
                         int64_t amount,
                         const uint16_t *shares, size_t owners,
                         uint8_t *output, size_t output_length,
                         int64_t *parts, uint64_t *answer,
                         int64_t *fee, uint64_t *charged);

/* Reduces a payee's text, as kurvneist_payee does, where kurvneist_settle takes a term; all else is the same. */
uint8_t kurvneist_settle_payee(const uint8_t *book, size_t book_length,
                               const uint8_t *text, size_t text_length,
                               uint8_t units, uint32_t budget, uint16_t day,
                               const uint8_t *schedule, size_t schedule_length,
                               const uint8_t *rates, size_t rates_length,
                               int64_t amount,
                               const uint16_t *shares, size_t owners,
                               uint8_t *output, size_t output_length,
                               int64_t *parts, uint64_t *answer,
                               int64_t *fee, uint64_t *charged);

/* KURVNEIST_POINTS_LENGTH. */
size_t kurvneist_points_length(void);

/*
 * Reduces a line under a name of 1 to KURVNEIST_LONGEST_NAME bytes, and if the run ends cut, saves it in `points`, so that
 * kurvneist_resume can go on with it. What is answered is what kurvneist_reduce answers without a name.
 *
 * In `points` there are KURVNEIST_MOST_NAMES slots of 65,536 bytes; what is behind them is neither read nor written. All
 * zeros are no points. A run is saved in the slot of its name, whose older point it replaces, or else in the lowest free
 * slot. Points of other names are as they were, and if the run ends otherwise, so are all.
 *
 * The result is 0, or the number of a refusal: the run's own, and between its line's and 14 those of the points: 16 if their
 * buffer is too short; 20 if any point in it breaks a rule (docs/FORMAT.md lists them) or the name is too long or empty; 21
 * if no point has the name and no slot is free. After a refusal `points` is as it was; all else is as for kurvneist_reduce.
 */
uint8_t kurvneist_park(const uint8_t *book, size_t book_length,
                       const uint8_t *line, size_t line_length,
                       uint8_t units, uint32_t budget, uint16_t day,
                       const uint8_t *schedule, size_t schedule_length,
                       const uint8_t *name, size_t name_length,
                       uint8_t *work, size_t work_length,
                       uint8_t *net, size_t net_length,
                       uint8_t *points, size_t points_length,
                       uint8_t *output, size_t output_length,
                       uint64_t *answer);

/* Reduces a payee's text under a name, as kurvneist_payee does, where kurvneist_park takes a term; all else is the same. */
uint8_t kurvneist_park_payee(const uint8_t *book, size_t book_length,
                             const uint8_t *text, size_t text_length,
                             uint8_t units, uint32_t budget, uint16_t day,
                             const uint8_t *schedule, size_t schedule_length,
                             const uint8_t *name, size_t name_length,
                             uint8_t *work, size_t work_length,
                             uint8_t *net, size_t net_length,
                             uint8_t *points, size_t points_length,
                             uint8_t *output, size_t output_length,
                             uint64_t *answer);

/*
 * Goes on with the run of a name, by its point's book, day, units and budget. Of the answer, rewrites, entries and FORKs are
 * those of all parts of the run, which ends exactly like the unbroken one; entries and FORKs stay at UINT64_MAX once there.
 *
 * If the run is cut again, its point is replaced; otherwise its slot is all zero, and free. Points of other names are as they
 * were.
 *
 * The result is 0, or the number of a refusal: 15; 16; of the points 16, then 20, also if none has the name; 14, by the
 * point's units. After a refusal `points` is as it was; all else is as for kurvneist_reduce.
 */
uint8_t kurvneist_resume(const uint8_t *name, size_t name_length,
                         const uint8_t *schedule, size_t schedule_length,
                         uint8_t *work, size_t work_length,
                         uint8_t *net, size_t net_length,
                         uint8_t *points, size_t points_length,
                         uint8_t *output, size_t output_length,
                         uint64_t *answer);

/*
 * Says how long a schedule suffices for a line, whatever the number of units: S, the orders that a run of one unit without
 * symbol limit carries out, and F, its FORKs. If that run finishes within the budget, then by the same book, line, budget and
 * day kurvneist_reduce carries out at most S + 3 * F orders, under any schedule; an entry for an idle unit is none. So
 * S + 4 * F rounds, each naming every unit, never end cut: they finish, or end full. This holds for runs in parts too, all
 * parts together.
 *
 * The two are told by a run of one unit over KURVNEIST_BOUND_ENTRIES entries, with the symbol limit of every run. If it
 * finishes, `answer`, of KURVNEIST_BOUND_LENGTH elements, has 0, S and F, and S is at most KURVNEIST_BOUND_ENTRIES. Otherwise
 * it has the ending and two zeros, and the two are not known: after KURVNEIST_SPENT no schedule finishes the line within the
 * budget; after KURVNEIST_FULL another order of units might keep the limit of 1,024 symbols; after KURVNEIST_CUT there are
 * more orders.
 *
 * The result is 0, or the number of a refusal: 15; the book, 1 to 5, 7 to 9; the line, 12, 11, 10. After 0 `work` and `net`
 * are all zero, whatever they held before. After a refusal `answer` is all zero, and `work` and `net` are as they were.
 *
 * Schedule and output of that run are its own: it uses some 90,000 bytes of stack.
 */
uint8_t kurvneist_bound(const uint8_t *book, size_t book_length,
                        const uint8_t *line, size_t line_length,
                        uint32_t budget, uint16_t day,
                        uint8_t *work, size_t work_length,
                        uint8_t *net, size_t net_length,
                        uint64_t *answer);

/* The same for a payee's text, as kurvneist_payee takes it; its refusals are 19 and 18 in the place of the line's. */
uint8_t kurvneist_bound_payee(const uint8_t *book, size_t book_length,
                              const uint8_t *text, size_t text_length,
                              uint32_t budget, uint16_t day,
                              uint8_t *work, size_t work_length,
                              uint8_t *net, size_t net_length,
                              uint64_t *answer);

/*
 * Writes a book with its strategies settled to the front of `output`; the output's other bytes are as they were. A dated
 * book is written dated, with all its rules and their days. A written book is never longer than the book given, so an
 * output of book_length bytes, or of KURVNEIST_LONGEST_BOOK, is never refused by 16.
 *
 * The result is 0, or the number of a refusal: 1 to 5, 7 to 9, or 16. `length` has one element: the bytes written, or 0 after a
 * refusal, which leaves `output` as it was.
 */
uint8_t kurvneist_write_book(const uint8_t *book, size_t book_length,
                             uint8_t *output, size_t output_length,
                             uint64_t *length);

/*
 * Whether a book is strict: no term that its operators form is matched by two of its rules, so that their order is free. Any
 * rearrangement of the rules gives the same term, ending, rewrites, entries, FORKs granted and kept for every line under the
 * same schedule. Two rules with the same left side are two rules.
 *
 * The result is 0 if it is, or the number of a refusal: the book's own, 1 to 5, 7 to 9; then 24 for a dated book, a variable
 * repeated in a left side, or no operator of arity 0; then 25, exactly if some term has two matching rules. `pair` has
 * KURVNEIST_PAIR_LENGTH elements: after 25 the first two rules that match one term, numbered from 0 in the book, the lowest
 * first rule and with it the lowest second; otherwise zeros.
 *
 * It is lent no area: it uses some 350,000 bytes of stack, which is more than the least that a thread may have.
 */
uint8_t kurvneist_strict_book(const uint8_t *book, size_t book_length,
                              uint64_t *pair);

#ifdef __cplusplus
}
#endif

#endif
