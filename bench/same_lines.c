// Runs every case of a folder of vectors as many lines by one book, on the library and on both unverified engines: the case's line among faulty ones, with the
// lines cut short, and with little room. Records, numbers and areas are those that kurvneist_reduce's answers to each line by itself make.
#include "cases.h"
#include "lines.h"

// The line twice, between them lines that are empty, a symbol shorter, a byte longer, too long, and of an operator that no book has.
static size_t put_lines(const input *in, uint8_t *lines) {
    static const uint8_t zeros[1025], unknown = 255;
    size_t n = in->line_length;
    size_t at = put_line(lines, 0, in->line, n);
    at = put_line(lines, at, in->line, 0);
    at = put_line(lines, at, in->line, n ? n - 1 : 0);
    at = put_line(lines, at, in->line, n + 1); // the byte behind it is the units'
    at = put_line(lines, at, zeros, sizeof zeros);
    at = put_line(lines, at, &unknown, 1);
    return put_line(lines, at, in->line, n);
}

static int agree(const char *path) {
    static uint8_t bytes[LONGEST_CASE], lines[2 * LONGEST_CASE];
    static const size_t cuts[] = {0, 1, 2}, rooms[] = {10 * RECORD_LENGTH, RECORD_LENGTH + 100, RECORD_LENGTH, RECORD_LENGTH - 1, 0};
    input in;
    if (!take_apart(bytes, read_file(path, bytes), &in)) return 1;
    batch b = {in.book, lines, in.schedule, in.book_length, 0, in.schedule_length, 0, in.budget, in.day, in.units};
    size_t length = put_lines(&in, lines);
    for (size_t room = 0; room < sizeof rooms / sizeof *rooms; room++)
        for (size_t cut = 0; cut < sizeof cuts / sizeof *cuts; cut++) {
            b.room = rooms[room];
            b.lines_length = length - cuts[cut];
            if (!same_records(&b)) return 0;
        }
    b.lines_length = 0;
    return same_records(&b);
}

int main(int argc, char **argv) { return argc == 2 ? !all_agree(argv[1], agree) : 2; }
