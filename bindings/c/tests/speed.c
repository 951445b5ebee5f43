/* speed.c - how many blocks a second are judged, told, shown and written.
 *
 * usage: speed FILE NAME READING COUNT < BLOCKS
 *
 * BLOCKS are lines of hexadecimal digits, whole octets, that the rule has; they are gone through again until COUNT blocks are
 * done. Prints a line for each call, with the best of five runs. Before them `taken` has how often judge, tell and show ask for
 * memory behind the first block, and `again` how often they do as all blocks come a second time. */
#define _POSIX_C_SOURCE 200809L
#include "common.h"
#include <stdio.h>
#include <stdlib.h>
#include <string.h>
#include <time.h>

enum { MOST_BLOCKS = 4096, MOST_OCTETS = 256, MOST_TEXT = 8192, MOST_EVENTS = 1024, RUNS = 5 };

static struct {
    uint8_t octets[MOST_OCTETS];
    size_t length;
    uint8_t text[MOST_TEXT];
    size_t text_length;
} blocks[MOST_BLOCKS];

static size_t block_count = 0;
static csn_rule rule = {0};
static csn_stream stream = {0};
static uint8_t out[MOST_TEXT];
static csn_event events[MOST_EVENTS];

/* How often the library has asked for memory, which it has from malloc. */
static size_t asked = 0;
static char nothing;

static struct rattle_tried tried(void *p)
{
    struct rattle_tried it = {p != NULL, p != NULL ? p : &nothing};
    asked++;
    return it;
}

struct rattle_tried rattle_alloc(size_t n, size_t a)
{
    return tried(malloc(n != 0 ? n : a));
}

struct rattle_tried rattle_realloc(void *p, size_t kept, size_t n, size_t a)
{
    (void)kept;
    return tried(realloc(p, n != 0 ? n : a));
}

void rattle_dealloc(void *p)
{
    free(p);
}

static double now(void)
{
    struct timespec at;
    clock_gettime(CLOCK_MONOTONIC, &at);
    return (double)at.tv_sec + 1e-9 * (double)at.tv_nsec;
}

static uint32_t judges(size_t i)
{
    size_t number;
    return csn_judge(&rule, blocks[i].octets, blocks[i].length, 8 * (uint32_t)blocks[i].length, &number);
}

static uint32_t tells(size_t i)
{
    size_t count, number;
    return csn_tell(&rule, blocks[i].octets, blocks[i].length, 8 * (uint32_t)blocks[i].length, events, MOST_EVENTS, &count,
                    &number);
}

/* The block in two pieces. */
static uint32_t pushes(size_t i)
{
    size_t number, half = blocks[i].length / 2, rest = blocks[i].length - half;
    csn_stream_push(&stream, blocks[i].octets, half, 8 * (uint32_t)half, &number);
    csn_stream_push(&stream, blocks[i].octets + half, rest, 8 * (uint32_t)rest, &number);
    return csn_stream_end(&stream, &number);
}

static uint32_t shows(size_t i)
{
    size_t number;
    return csn_show(&rule, blocks[i].octets, blocks[i].length, 8 * (uint32_t)blocks[i].length, CSN_TEXT, out, sizeof out,
                    &number);
}

static uint32_t shows_json(size_t i)
{
    size_t number;
    return csn_show(&rule, blocks[i].octets, blocks[i].length, 8 * (uint32_t)blocks[i].length, CSN_JSON, out, sizeof out,
                    &number);
}

static uint32_t writes(size_t i)
{
    size_t number;
    return csn_write(&rule, blocks[i].text, blocks[i].text_length, CSN_TEXT, out, sizeof out, &number);
}

static void time_of(const char *what, uint32_t (*call)(size_t), size_t count)
{
    double best = 0;
    for (int run = 0; run < RUNS; run++) {
        double start = now();
        for (size_t k = 0, i = 0; k < count; k++, i = i + 1 == block_count ? 0 : i + 1)
            if (call(i) != CSN_OK)
                odd(what, 1, CSN_OK);
        double rate = (double)count / (now() - start);
        best = rate > best ? rate : best;
    }
    printf("%s %.0f\n", what, best);
}

/* Goes through the blocks from one on by the calls that are to take no memory, and tells how often they ask for some. */
static void count_asked(const char *what, size_t from)
{
    asked = 0;
    for (size_t i = from; i < block_count; i++)
        if (judges(i) != CSN_OK || tells(i) != CSN_OK || shows(i) != CSN_OK || shows_json(i) != CSN_OK)
            odd(what, 1, CSN_OK);
    printf("%s %zu\n", what, asked);
}

static bool read_block(void)
{
    char line[2 * MOST_OCTETS + 2];
    unsigned octet;
    if (block_count == MOST_BLOCKS || fgets(line, sizeof line, stdin) == NULL)
        return false;
    for (const char *at = line; sscanf(at, "%2x", &octet) == 1; at += 2)
        blocks[block_count].octets[blocks[block_count].length++] = (uint8_t)octet;
    return true;
}

int main(int count, char **words)
{
    csn_why why;
    if (count != 5)
        return 2;
    bytes text = read_file(words[1]);
    size_t many = (size_t)atol(words[4]);
    if (compile_file(&text, words[2], words[3], &rule, &why) != CSN_OK || csn_stream_open(&rule, &stream) != CSN_OK
        || compile_file(&text, words[2], words[3], &rule, &why) != CSN_OK)
        return 2;
    for (; read_block(); block_count++) {
        if (shows(block_count) != CSN_OK)
            odd("status of a block", 1, CSN_OK);
        csn_show(&rule, blocks[block_count].octets, blocks[block_count].length, 8 * (uint32_t)blocks[block_count].length,
                 CSN_TEXT, blocks[block_count].text, MOST_TEXT, &blocks[block_count].text_length);
    }
    if (block_count == 0)
        return 2;
    if (compile_file(&text, words[2], words[3], &rule, &why) != CSN_OK || tells(0) != CSN_OK || shows(0) != CSN_OK
        || shows_json(0) != CSN_OK)
        return 2;
    count_asked("taken", 1);
    count_asked("again", 0);
    time_of("judge", judges, many);
    time_of("pieces", pushes, many);
    time_of("tell", tells, many);
    time_of("show", shows, many);
    time_of("json", shows_json, many);
    time_of("write", writes, many);
    csn_free(&rule);
    csn_stream_free(&stream);
    free(text.at);
    return odd_count != 0;
}
