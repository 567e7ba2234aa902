// An unverified engine: the orders of document 01 entry by entry, over the library's representation of a run. The present term is its symbols in
// preorder, each with the number of symbols under and including it; a unit's orders are a stack of frames of three bytes in the work area, an
// operator's orders are a row of steps. Rules are found by a net over their left sides (net.h), built in the lent area.
//
// It is compiled several times. With PACKED it also makes the library's choices for rules and frames, with LOWEST it has the FORK of before Change 9, with
// COUNTED it counts (engine.h).
#include "engine.h"
#include "../library/include/kurvneist.h"
#include "net.h"
#include "reader.h"
#include <string.h>

#define INLINE static inline __attribute__((always_inline))

enum { MOST = 1024, HEIGHT = 1026, UNITS = 8, WORK = 3 * HEIGHT * UNITS, SIDE = 64, VARIABLE = NET_VARIABLE };
enum { FINISHED, SPENT, FULL, CUT, GOING };

// The kinds of a frame: below EXIT a job, whose kind is its next order (0 for VISIT), from EXIT on an EXIT for a JOIN of unit kind - EXIT.
enum { EXIT = 32, SLEEP = 40, BINGO = 41 };

// Steps as reader.c lays them out, a number added for the argument or the count.
enum { NONE = 0, WHOLE = 1, PASS = 2, VISIT = 8, FORK = 16, JOIN = 24 };

typedef struct {
    uint16_t left[SIDE], right[SIDE];
    uint8_t left_size, right_size;
} rule;

typedef struct {
    const uint8_t *book;
    size_t bytes;
    unsigned rules;
    tables read;
    uint8_t arity[256];
    uint8_t joins[256 * 16]; // the count of the next JOIN from a step on
#ifndef PACKED
    uint8_t decoded[256];
    rule sides[256];
#endif
    uint32_t cells[MOST], scratch[MOST];
    uint8_t *work;
    net *net; // in the lent area, which is longer
    unsigned units, busy; // a bit for each busy unit
    uint32_t queue; // the idle units in fields of four bits, the one idle longest lowest
    unsigned idle; // the bits that they take
    uint8_t *tops[UNITS]; // the frame on top
    uint32_t budget, rewrites;
    int ending;
    size_t entries, granted, kept;
    uint16_t starts[16];
} engine;

// Frames: a kind, then a job's offset and count (the six high bits) or an EXIT's stack index.

static inline uint8_t *frame(engine *e, unsigned unit, unsigned index) { return e->work + 3 * (HEIGHT * unit + index); }

static inline unsigned get(const uint8_t *frame) { return frame[1] | (unsigned)frame[2] << 8; }

static inline void set(uint8_t *frame, unsigned value) {
    frame[1] = (uint8_t)value;
    frame[2] = (uint8_t)(value >> 8);
}

static inline void push(engine *e, unsigned unit, unsigned kind, unsigned value) {
    uint8_t *f = e->tops[unit] += 3;
    f[0] = (uint8_t)kind;
    set(f, value);
}

// Terms.

// A symbol's record: its operator, and of the term that it begins whether it is marked, having no orders left, and the size.
enum { MARK = 256, ONE_SIZE = 512 };

static inline uint32_t make(unsigned o, unsigned size) { return o + size * ONE_SIZE; }

static inline unsigned operator_of(uint32_t cell) { return cell & 255; }

static inline unsigned size_of(uint32_t cell) { return cell >> 9; }

static inline unsigned operator_at(const engine *e, unsigned at) { return operator_of(e->cells[at]); }

static inline int is_marked(const engine *e, unsigned at) { return (e->cells[at] & MARK) != 0; }

static inline void mark(engine *e, unsigned at) { e->cells[at] |= MARK; }

// The offset behind so many terms.
static inline unsigned skip(const uint32_t *cells, unsigned at, unsigned terms) {
    for (; terms; terms--) at += size_of(cells[at]);
    return at;
}

static inline void copy(uint32_t *to, const uint32_t *from, unsigned n) {
    if (n < 8) for (unsigned i = 0; i < n; i++) to[i] = from[i];
    else memcpy(to, from, n * sizeof *to);
}

static inline int equal_parts(const engine *e, unsigned x, unsigned y) {
    unsigned n = size_of(e->cells[x]);
    if (n != size_of(e->cells[y])) return 0;
    for (unsigned i = 0; i < n; i++)
        if ((e->cells[x + i] ^ e->cells[y + i]) & 255) return 0;
    return 1;
}

// Rules.

// The symbol of a side at a bit position, which moves on: an operator, or VARIABLE and a variable.
static inline unsigned symbol(const engine *e, size_t *at) {
    unsigned s = net_symbol(e->book, e->bytes, *at);
    *at += net_width(s);
    return s;
}

// Variable v stands at an offset; not if it stood before at another part.
static inline int bind(engine *e, unsigned v, unsigned *bound, unsigned at) {
    if (*bound >> v & 1) return equal_parts(e, e->starts[v], at);
    *bound |= 1u << v;
    e->starts[v] = (uint16_t)at;
    return 1;
}

// The sizes of the operators at these places, each behind the one before.
static inline void settle(engine *e, const uint16_t *places, unsigned count) {
    while (count-- > 0) {
        unsigned p = places[count], o = e->scratch[p];
        e->scratch[p] = make(o, skip(e->scratch, p + 1, e->arity[o]) - p);
    }
}

#ifdef PACKED

// Does the rule's left side match the term at an offset? The root, of nine bits, agrees already.
static int match(engine *e, unsigned i, unsigned offset) {
    size_t at = e->read.lefts[i] + 9;
    unsigned q = offset + 1, end = offset + size_of(e->cells[offset]), bound = 0;
    while (q < end) {
        unsigned s = symbol(e, &at);
        if (s & VARIABLE) {
            if (!bind(e, s & 15, &bound, q)) return 0;
            q += size_of(e->cells[q]);
        } else if (operator_at(e, q++) != s) return 0;
    }
    return 1;
}

static unsigned filled_size(const engine *e, unsigned i) {
    size_t at = e->read.rights[i];
    unsigned size = 0;
    for (unsigned due = 1; due > 0; due--) {
        unsigned s = symbol(e, &at);
        if (s & VARIABLE) size += size_of(e->cells[e->starts[s & 15]]);
        else size++, due += e->arity[s];
    }
    return size;
}

// The filled right side; its operators' sizes are put from the last to the first.
static void fill(engine *e, unsigned i) {
    size_t at = e->read.rights[i];
    uint16_t places[SIDE];
    unsigned out = 0, operators = 0;
    for (unsigned due = 1; due > 0; due--) {
        unsigned s = symbol(e, &at);
        if (s & VARIABLE) {
            unsigned from = e->starts[s & 15], size = size_of(e->cells[from]);
            copy(e->scratch + out, e->cells + from, size);
            out += size;
        } else {
            due += e->arity[s];
            places[operators++] = (uint16_t)out;
            e->scratch[out++] = s;
        }
    }
    settle(e, places, operators);
}

#else

static unsigned decode_side(const engine *e, size_t at, uint16_t *side) {
    unsigned k = 0;
    for (int due = 1; due > 0; k++) {
        unsigned s = symbol(e, &at);
        side[k] = (uint16_t)s;
        due += s & VARIABLE ? -1 : e->arity[s] - 1;
    }
    return k;
}

// A rule is decoded when it is first tried.
static void decode(engine *e, unsigned i) {
    rule *r = &e->sides[i];
    r->left_size = (uint8_t)decode_side(e, e->read.lefts[i], r->left);
    r->right_size = (uint8_t)decode_side(e, e->read.rights[i], r->right);
    e->decoded[i] = 1;
}

// As above.
static int match(engine *e, unsigned i, unsigned offset) {
    if (!e->decoded[i]) decode(e, i);
    const rule *r = &e->sides[i];
    unsigned q = offset + 1, bound = 0;
    for (unsigned k = 1; k < r->left_size; k++) {
        unsigned s = r->left[k];
        if (s & VARIABLE) {
            if (!bind(e, s & 15, &bound, q)) return 0;
            q += size_of(e->cells[q]);
        } else if (operator_at(e, q++) != s) return 0;
    }
    return 1;
}

static unsigned filled_size(const engine *e, unsigned i) {
    const rule *r = &e->sides[i];
    unsigned size = 0;
    for (unsigned k = 0; k < r->right_size; k++) size += r->right[k] & VARIABLE ? size_of(e->cells[e->starts[r->right[k] & 15]]) : 1;
    return size;
}

static void fill(engine *e, unsigned i) {
    const rule *r = &e->sides[i];
    uint16_t places[SIDE];
    unsigned out = 0, operators = 0;
    for (unsigned k = 0; k < r->right_size; k++) {
        unsigned s = r->right[k];
        if (s & VARIABLE) {
            unsigned from = e->starts[s & 15], size = size_of(e->cells[from]);
            copy(e->scratch + out, e->cells + from, size);
            out += size;
        } else {
            places[operators++] = (uint16_t)out;
            e->scratch[out++] = s;
        }
    }
    settle(e, places, operators);
}

#endif

// The symbol of a left side at a depth, which stands so many bits behind its root.
static inline unsigned left_symbol(engine *e, unsigned i, unsigned depth, unsigned at) {
#ifdef PACKED
    (void)depth;
    return net_symbol(e->book, e->bytes, e->read.lefts[i] + at);
#else
    (void)at;
    if (!e->decoded[i]) decode(e, i);
    return e->sides[i].left[depth];
#endif
}

#define NET_CONTEXT engine
#define NET_OF(e) ((const net *)(e)->net)
#define NET_SYMBOL left_symbol
#define NET_CELL operator_at
#define NET_SIZE(e, at) size_of((e)->cells[at])
#define NET_MATCH match
#include "net_search.h"

// Rewrites.

// Every term that holds the one on top of the unit's stack is a job: the own ones down to an EXIT, then those of the unit that lent it.
static inline void grow(engine *e, unsigned unit, int by) {
    for (const uint8_t *f = e->tops[unit] - 3; f[0] != BINGO; f -= 3) {
        if (f[0] < EXIT) e->cells[get(f) & 1023] += (uint32_t)by * ONE_SIZE;
        else f = frame(e, f[0] - EXIT, get(f) + 1);
    }
}

// The jobs behind the offset go along. A unit alone has none: all its jobs are of terms that hold the rewritten one.
static void shift(engine *e, unsigned from, int by) {
    if (e->units == 1) return;
    for (unsigned u = 0; u < e->units; u++) {
        const uint8_t *top = e->tops[u];
        for (uint8_t *f = frame(e, u, 1); f <= top; f += 3) {
            unsigned value = get(f);
            if (f[0] < EXIT && (value & 1023) >= from) set(f, (unsigned)((int)value + by));
        }
    }
}

static inline void move_tail(engine *e, size_t to, size_t from, size_t n) {
    memmove(e->cells + to, e->cells + from, n * sizeof *e->cells);
}

// The filled right side takes the place of the term at an offset.
static void replace(engine *e, unsigned unit, unsigned offset, unsigned size) {
    unsigned old = size_of(e->cells[offset]), end = offset + old;
    int by = (int)size - (int)old;
    if (by) move_tail(e, offset + size, end, size_of(e->cells[0]) - end);
    copy(e->cells + offset, e->scratch, size);
    uint8_t *top = e->tops[unit];
    top[0] = 0;
    set(top, offset);
    if (by) {
        grow(e, unit, by);
        shift(e, end, by);
    }
}

// The queue of idle units.

static inline void rest(engine *e, unsigned unit) {
    e->busy &= ~(1u << unit);
    e->queue |= (uint32_t)unit << e->idle;
    e->idle += 4;
}

// The unit of the field that begins at a bit leaves the queue.
static inline unsigned wake(engine *e, unsigned at) {
    unsigned unit = e->queue >> at & 15;
    uint32_t before = ((uint32_t)1 << at) - 1;
    e->queue = (e->queue & before) | (e->queue >> 4 & ~before);
    e->idle -= 4;
    e->busy |= 1u << unit;
    return unit;
}

// The bit at which the field of an idle unit begins.
static inline unsigned place_of(const engine *e, unsigned unit) {
    unsigned at = 0;
    while ((e->queue >> at & 15) != unit) at += 4;
    return at;
}

// FORK takes the unit that has been idle longest, which is first; with LOWEST the one of the lowest number.
static inline unsigned place_to_take(const engine *e) {
#ifdef LOWEST
    return place_of(e, (unsigned)__builtin_ctz(~e->busy));
#else
    (void)e;
    return 0;
#endif
}

// Orders.

// The top job, of operator o, goes on with step k and a count. If there is no such step it is over, and its term is marked: the last step is a WHOLE, which
// found no match.
INLINE void proceed(engine *e, unsigned unit, uint8_t *top, unsigned o, unsigned offset, unsigned k, unsigned count) {
    if (e->read.laid[16 * o + k] == NONE) {
        e->tops[unit] -= 3;
        mark(e, offset);
    } else {
        top[0] = (uint8_t)(k + 1);
        set(top, offset | count << 10);
    }
}

// The orders of the term at an offset, which has none if it is marked.
INLINE void enter(engine *e, unsigned unit, unsigned offset) {
    if (is_marked(e, offset)) return;
    unsigned o = operator_at(e, offset);
    if (e->read.laid[16 * o] == NONE) mark(e, offset);
    else push(e, unit, 1, offset | (unsigned)e->joins[16 * o] << 10);
}

static int whole(engine *e, unsigned unit, uint8_t *top, unsigned o, unsigned offset, unsigned k, unsigned count) {
    unsigned i = net_find(e, offset);
    if (!i) {
        proceed(e, unit, top, o, offset, k, count);
        return GOING;
    }
    if (e->rewrites == e->budget) return SPENT;
    unsigned size = filled_size(e, i - 1);
    if (size_of(e->cells[0]) - size_of(e->cells[offset]) + size > MOST) return FULL;
    fill(e, i - 1);
    replace(e, unit, offset, size);
    e->rewrites++;
    return GOING;
}

static void fork_part(engine *e, unsigned unit, uint8_t *top, unsigned o, unsigned offset, unsigned k, unsigned count, unsigned argument) {
    unsigned part = skip(e->cells, offset + 1, argument);
    if (!e->idle) {
        e->kept++;
        proceed(e, unit, top, o, offset, k, count - 1);
        push(e, unit, 0, part);
        return;
    }
    unsigned v = wake(e, place_to_take(e));
    push(e, v, EXIT + unit, (unsigned)(top - frame(e, unit, 0)) / 3);
    push(e, v, 0, part);
    e->granted++;
    proceed(e, unit, top, o, offset, k, count);
}

static void leave(engine *e, unsigned unit, const uint8_t *top) {
    unsigned v = top[0] - EXIT;
    uint8_t *job = frame(e, v, get(top));
    e->tops[unit] -= 3;
    unsigned value = get(job) - 1024;
    set(job, value);
    if (value < 1024 && !(e->busy >> v & 1)) wake(e, place_of(e, v));
}

// A job's next order, the one of step k - 1; for k = 0 VISIT.
INLINE int job(engine *e, unsigned unit, uint8_t *top) {
    unsigned k = top[0], value = get(top), offset = value & 1023, count = value >> 10, o = operator_at(e, offset);
    if (k == 0) {
        if (is_marked(e, offset)) e->tops[unit] -= 3;
        else proceed(e, unit, top, o, offset, 0, e->joins[16 * o]);
        return GOING;
    }
    unsigned step = e->read.laid[16 * o + k - 1];
    if (step == WHOLE) return whole(e, unit, top, o, offset, k, count);
    if (step == PASS) {
        proceed(e, unit, top, o, offset, k, count);
        return GOING;
    }
    if (step < FORK) {
        unsigned part = skip(e->cells, offset + 1, step - VISIT);
        proceed(e, unit, top, o, offset, k, count);
        enter(e, unit, part);
    } else if (step < JOIN) fork_part(e, unit, top, o, offset, k, count, step - FORK);
    else if (count == 0) proceed(e, unit, top, o, offset, k, e->joins[16 * o + k]);
    else rest(e, unit);
    return GOING;
}

// One entry of a busy unit.
INLINE int act(engine *e, unsigned unit) {
    uint8_t *top = e->tops[unit];
    if (top[0] < EXIT) return job(e, unit, top);
    if (top[0] == BINGO) return FINISHED;
    if (top[0] == SLEEP) rest(e, unit);
    else leave(e, unit, top);
    return GOING;
}

// Runs.

static void count_joins(engine *e, unsigned operators) {
    for (unsigned o = 0; o < operators; o++) {
        uint8_t *row = e->read.laid + 16 * o;
        uint8_t count = 0;
        if (!e->net->root[o])
            for (unsigned k = 0; row[k]; k++)
                if (row[k] == WHOLE) row[k] = PASS;
        for (unsigned k = 16; k-- > 0; e->joins[16 * o + k] = count)
            if (row[k] >= JOIN) count = (uint8_t)(row[k] - JOIN);
    }
}

// With COUNTED: what an entry of the unit adds to the counts.
static inline void count(const engine *e, unsigned unit) {
#ifdef COUNTED
    unsigned busy = e->busy >> unit & 1;
    counted.orders[unit] += busy;
    counted.changes += busy != counted.busy[unit];
    counted.busy[unit] = (uint8_t)busy;
#else
    (void)e, (void)unit;
#endif
}

static void run_all(engine *e, const uint8_t *schedule, size_t entries) {
    int ending = GOING;
    size_t i = 0;
    while (i < entries && ending == GOING) {
        unsigned unit = schedule[i++];
        count(e, unit);
        if (e->busy >> unit & 1) ending = act(e, unit);
    }
    e->ending = ending == GOING ? CUT : ending;
    e->entries = i;
}

static void start(engine *e) {
    e->busy = 1;
    e->queue = 0;
    e->idle = 0;
    for (unsigned u = 0; u < e->units; u++) {
        e->tops[u] = frame(e, u, 0) - 3;
        push(e, u, u ? SLEEP : BINGO, 0);
        if (u) rest(e, u);
    }
    push(e, 0, 0, 0);
    e->rewrites = 0;
    e->granted = e->kept = 0;
}

static uint8_t check_line(const engine *e, const uint8_t *line, size_t length) {
    if (length > MOST) return 12;
    unsigned operators = e->read.operators;
    int due = 1;
    for (size_t i = 0; i < length; i++) {
        if (due == 0) return 10;
        if (line[i] >= operators) return 11;
        due += e->read.arities[line[i]] - 1;
    }
    return due ? 10 : 0;
}

// The line's symbols, the last one first, since a size is told by those behind it.
static void load(engine *e, const uint8_t *line, unsigned length) {
    while (length-- > 0) e->cells[length] = make(line[length], skip(e->cells, length + 1, e->arity[line[length]]) - length);
}

// Does every entry name a unit? Eight at a time: adding 128 - units to a byte below 128 sets its high bit if it is units or above.
static int names_units(const uint8_t *schedule, size_t length, unsigned units) {
    const uint64_t ones = 0x0101010101010101u, high = 0x80 * ones;
    uint64_t bad = 0;
    size_t i = 0;
    for (; i + 8 <= length; i += 8) {
        uint64_t x;
        memcpy(&x, schedule + i, 8);
        bad |= x | ((x & ~high) + (128 - units) * ones);
    }
    for (; i < length; i++)
        if (schedule[i] >= units) return 0;
    return !(bad & high);
}

// Calls: a frame, a book, its lines.

static uint8_t frame_fault(unsigned units, size_t work_length, size_t net_length) {
    if (units < 1 || units > UNITS) return 13;
    return work_length < WORK || net_length < KURVNEIST_NET_LENGTH ? 15 : 0;
}

static void lend(engine *e, unsigned units, uint32_t budget, uint8_t *work, uint8_t *lent_net) {
    e->units = units;
    e->budget = budget;
    e->work = work;
    e->net = (net *)lent_net;
}

static uint8_t read_book(engine *e, const uint8_t *book, size_t length, uint16_t day) {
    int fault = c_read_book(book, length, day, &e->read);
    if (fault) return (uint8_t)fault;
    e->book = book;
    e->bytes = length;
    e->rules = e->read.rules;
    memcpy(e->arity, e->read.arities, e->read.operators);
    return 0;
}

// From here on what is lent is written to.
static void open_book(engine *e) {
    net_build(e->net, e->book, e->bytes, e->read.lefts, e->rules, e->arity);
    count_joins(e, e->read.operators);
#ifndef PACKED
    memset(e->decoded, 0, e->rules);
#endif
}

// A line that has been checked, by an open book. What the engine and the work area hold of one before doesn't matter.
static void run_line(engine *e, const uint8_t *line, size_t length, const uint8_t *schedule, size_t entries) {
    load(e, line, (unsigned)length);
    start(e);
    run_all(e, schedule, entries);
}

// The present term's symbols; how many they are.
static unsigned hand_out(const engine *e, uint8_t *output) {
    unsigned length = size_of(e->cells[0]);
    for (unsigned x = 0; x < length; x++) output[x] = (uint8_t)e->cells[x];
    return length;
}

uint8_t REDUCE(const uint8_t *book, size_t book_length, const uint8_t *line, size_t line_length, uint8_t units, uint32_t budget,
    uint16_t day, const uint8_t *schedule, size_t schedule_length, uint8_t *work, size_t work_length, uint8_t *lent_net, size_t net_length, uint8_t *output,
    size_t output_length, uint64_t *answer) {
    engine e;
    memset(answer, 0, KURVNEIST_ANSWER_LENGTH * sizeof *answer);
    uint8_t fault = frame_fault(units, work_length, net_length);
    if (fault) return fault;
    if (output_length < MOST) return 16;
    lend(&e, units, budget, work, lent_net);
    if ((fault = read_book(&e, book, book_length, day))) return fault;
    if ((fault = check_line(&e, line, line_length))) return fault;
    if (!names_units(schedule, schedule_length, units)) return 14;
    open_book(&e);
    run_line(&e, line, line_length, schedule, schedule_length);
    answer[KURVNEIST_ENDING] = (uint64_t)e.ending;
    answer[KURVNEIST_REWRITES] = e.rewrites;
    answer[KURVNEIST_ENTRIES] = e.entries;
    answer[KURVNEIST_GRANTED] = e.granted;
    answer[KURVNEIST_KEPT] = e.kept;
    answer[KURVNEIST_LENGTH] = hand_out(&e, output);
    memset(work, 0, work_length);
    memset(lent_net, 0, net_length);
    return 0;
}

// Many lines.

// The last n bytes of a number, the high one first; what stands behind them.
INLINE uint8_t *put_number(uint8_t *to, unsigned n, uint64_t value) {
    value = __builtin_bswap64(value << (64 - 8 * n));
    memcpy(to, &value, n);
    return to + n;
}

static uint8_t *put_record(const engine *e, uint8_t *to) {
    to = put_number(to, 2, (uint64_t)e->ending);
    to = put_number(to, 4, e->rewrites);
    to = put_number(to, 8, e->entries);
    to = put_number(to, 8, e->granted);
    to = put_number(to, 8, e->kept);
    unsigned length = hand_out(e, to + 2);
    return put_number(to, 2, length) + length;
}

// A line's record; what stands behind it. Every entry of the schedule names a unit, or not.
static uint8_t *answer_line(engine *e, const uint8_t *line, size_t length, int named, const uint8_t *schedule, size_t entries, uint8_t *to) {
    uint8_t fault = check_line(e, line, length);
    if (!fault && !named) fault = 14;
    if (fault) {
        *to = fault;
        return to + 1;
    }
    run_line(e, line, length, schedule, entries);
    return put_record(e, to);
}

// The length of the line in front of so many bytes, if there is one and its record fits; else why it isn't done.
INLINE int next_line(const uint8_t *lines, size_t left, size_t room, size_t *length) {
    if (left == 0) return LINES_END;
    if (left < 2) return LINES_CUT;
    *length = (size_t)lines[0] << 8 | lines[1];
    if (left - 2 < *length) return LINES_CUT;
    return room < RECORD_LENGTH ? LINES_ROOM : GOING;
}

uint8_t REDUCE_LINES(const uint8_t *book, size_t book_length, const uint8_t *lines, size_t lines_length, uint8_t units, uint32_t budget,
    uint16_t day, const uint8_t *schedule, size_t schedule_length, uint8_t *work, size_t work_length, uint8_t *lent_net, size_t net_length, uint8_t *answers,
    size_t answers_length, uint64_t *done) {
    engine e;
    const uint8_t *at = lines, *end = lines + lines_length;
    uint8_t *to = answers, *limit = answers + answers_length;
    size_t count = 0, length;
    int stop;
    memset(done, 0, DONE_LENGTH * sizeof *done);
    uint8_t fault = frame_fault(units, work_length, net_length);
    if (fault) return fault;
    lend(&e, units, budget, work, lent_net);
    if ((fault = read_book(&e, book, book_length, day))) return fault;
    open_book(&e);
    int named = names_units(schedule, schedule_length, units);
    for (; (stop = next_line(at, (size_t)(end - at), (size_t)(limit - to), &length)) == GOING; count++) {
        to = answer_line(&e, at + 2, length, named, schedule, schedule_length, to);
        at += 2 + length;
    }
    memset(work, 0, work_length);
    memset(lent_net, 0, net_length);
    done[DONE_LINES] = count;
    done[DONE_READ] = (uint64_t)(at - lines);
    done[DONE_WRITTEN] = (uint64_t)(to - answers);
    done[DONE_STOP] = (uint64_t)stop;
    return 0;
}
