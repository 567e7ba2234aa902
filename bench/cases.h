// The cases of a folder of vectors: document 01's program input, taken apart.
#ifndef CASES_H
#define CASES_H
#include <glob.h>
#include <stddef.h>
#include <stdint.h>
#include <stdio.h>
#include <stdlib.h>

enum { LONGEST_CASE = 1 << 18 };

typedef struct {
    const uint8_t *book, *line, *schedule;
    size_t book_length, line_length, schedule_length;
    uint8_t units;
    uint32_t budget;
    uint16_t day;
} input;

static size_t read_file(const char *path, uint8_t *bytes) {
    FILE *f = fopen(path, "rb");
    if (!f) { perror(path); exit(1); }
    size_t n = fread(bytes, 1, LONGEST_CASE, f);
    fclose(f);
    return n;
}

// A length and so many bytes, or 0 if they are cut short.
static int part(const uint8_t **at, const uint8_t *end, const uint8_t **bytes, size_t *length) {
    if (end - *at < 2) return 0;
    *length = (size_t)(*at)[0] << 8 | (*at)[1];
    *bytes = *at + 2;
    if ((size_t)(end - *bytes) < *length) return 0;
    *at = *bytes + *length;
    return 1;
}

// 0 where the input is refused by 17.
static int take_apart(const uint8_t *bytes, size_t n, input *in) {
    const uint8_t *at = bytes, *end = bytes + n;
    if (!part(&at, end, &in->book, &in->book_length) || !part(&at, end, &in->line, &in->line_length) || end - at < 5) return 0;
    in->units = at[0];
    in->budget = (uint32_t)at[1] << 24 | (uint32_t)at[2] << 16 | (uint32_t)at[3] << 8 | at[4];
    in->schedule = at + 5;
    in->day = 0;
    if (in->book_length && !in->book[0]) {
        if (end - in->schedule < 2) return 0;
        in->day = (uint16_t)(at[5] << 8 | at[6]);
        in->schedule += 2;
    }
    in->schedule_length = (size_t)(end - in->schedule);
    return in->schedule_length <= 32768;
}

// Do all agree on every case of a folder? Says how many there are, and which differ.
static int all_agree(const char *folder, int (*agree)(const char *path)) {
    glob_t cases;
    char pattern[4096];
    int bad = 0;
    snprintf(pattern, sizeof pattern, "%s/*.in", folder);
    if (glob(pattern, 0, NULL, &cases)) {
        printf("no cases at %s\n", pattern);
        return 0;
    }
    for (size_t i = 0; i < cases.gl_pathc; i++)
        if (!agree(cases.gl_pathv[i])) printf("%s differs\n", cases.gl_pathv[i]), bad++;
    printf("%zu cases, %d of them differ\n", cases.gl_pathc, bad);
    globfree(&cases);
    return !bad;
}
#endif
