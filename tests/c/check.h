/* What the two files of the C test share. */
#ifndef CHECK_H
#define CHECK_H

#include <stddef.h>
#include <stdint.h>

/* The checks that have passed so far. */
extern long checks;

/* Whether all n bytes have this value. */
int all(const uint8_t *bytes, size_t n, uint8_t value);

/* damage.c: holds the archive to the table of named damage in a file. Returns the number of its
 * cases; if a check fails, it prints the name of the case and exits with 1. */
long damage(const char *path);

#endif
