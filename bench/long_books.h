// Books of 255 rules whose sides have 64 symbols each: undated; dated, with left sides that differ early; dated, with left sides that differ in the last
// symbol only.
#ifndef LONG_BOOKS_H
#define LONG_BOOKS_H
#include "packer.h"

enum { LONG_RULES = 255, LONG_SIDE = 64, LONG_DAY = 20635 };
enum { UNDATED, EARLY, LATE, BOOKS };

extern packer books[BOOKS];
void make_books(void);
#endif
