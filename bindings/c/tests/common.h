/* common.h - what the tests share. */
#ifndef COMMON_H
#define COMMON_H
#include "csn.h"

/* A file as bytes, or the end of the test. */
typedef struct bytes {
    uint8_t *at;
    size_t length;
} bytes;

bytes read_file(const char *path);

/* Compiles the rule of a file's text, and tells the status. */
uint32_t compile_file(const bytes *text, const char *name, const char *reading, csn_rule *rule, csn_why *why);

/* Tells what is wrong, and counts it. */
void odd(const char *what, size_t got, size_t wanted);

/* How much was wrong. */
extern int odd_count;

#endif
