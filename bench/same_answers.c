// Runs every case of a folder of vectors (document 01's program input and page) on the library and on both unverified engines: the same refusal,
// answer, output, work area and net's area, and the page that the case has.
#include "cases.h"
#include "engine.h"
#include "../library/include/kurvneist.h"
#include <string.h>

typedef struct {
    uint8_t refusal, work[KURVNEIST_WORK_LENGTH], net[KURVNEIST_NET_LENGTH], output[KURVNEIST_OUTPUT_LENGTH];
    uint64_t answer[KURVNEIST_ANSWER_LENGTH];
} result;

static void run(reducer *reduce, const input *in, result *r) {
    memset(r, 0xa5, sizeof *r);
    r->refusal = reduce(in->book, in->book_length, in->line, in->line_length, in->units, in->budget, in->day, in->schedule, in->schedule_length,
        r->work, sizeof r->work, r->net, sizeof r->net, r->output, sizeof r->output, r->answer);
}

static size_t page_of(const result *r, char *page) {
    if (r->refusal) return (size_t)sprintf(page, "REDUCE 1\nrefused %u\n", r->refusal);
    static const char *const words[] = {"end", "rewrites", "entries", "granted", "kept"}; // an answer's elements in order, but for the length
    size_t n = (size_t)sprintf(page, "REDUCE 1\n");
    for (size_t i = 0; i < KURVNEIST_LENGTH; i++) n += (size_t)sprintf(page + n, "%s %u\n", words[i], (unsigned)r->answer[i]);
    n += (size_t)sprintf(page + n, "term");
    for (size_t i = 0; i < r->answer[KURVNEIST_LENGTH]; i++) n += (size_t)sprintf(page + n, " %u", r->output[i]);
    return n + (size_t)sprintf(page + n, "\n");
}

// 1 if all agree on a case.
static int agree(const char *path) {
    static reducer *const others[] = {c_reduce_packed, kurvneist_reduce};
    static uint8_t bytes[LONGEST_CASE], expected[LONGEST_CASE];
    static char page[LONGEST_CASE], out[4096];
    static result first, other;
    input in;
    size_t n = read_file(path, bytes);
    snprintf(out, sizeof out, "%.*s.out", (int)(strlen(path) - 3), path);
    size_t length = read_file(out, expected);
    if (!take_apart(bytes, n, &in)) return length == 20 && !memcmp(expected, "REDUCE 1\nrefused 17\n", 20);
    run(c_reduce, &in, &first);
    for (int i = 0; i < 2; i++) {
        run(others[i], &in, &other);
        if (memcmp(&first, &other, sizeof first)) return 0;
    }
    return page_of(&first, page) == length && !memcmp(page, expected, length);
}

int main(int argc, char **argv) { return argc == 2 ? !all_agree(argv[1], agree) : 2; }
