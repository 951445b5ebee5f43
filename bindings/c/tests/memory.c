/* memory.c - each allocation of some calls is refused once, alone and with all behind it.
 *
 * usage: memory FILE NAME READING BLOCK_FILE [STEP]
 *
 * BLOCK_FILE holds the octets of a block of the rule. With STEP only each so-manieth allocation is refused. What must hold: a
 * call that wants for memory says so and nothing else, leaves the handle and the buffer as they were, and leaks nothing; and
 * from the second block on no call takes memory but csn_write, which frees it. It has the three functions of the host itself,
 * in place of heap.c. */
#include "common.h"
#include <stdio.h>
#include <stdlib.h>
#include <string.h>

/* What is asked of the host: how often, what is refused, and how many blocks of memory are held. */
static struct {
    long calls, refused_at;
    bool alone;
    long live;
} heap = {0, -1, false, 0};

static char nothing;

static bool is_refused(void)
{
    long call = heap.calls++;
    return heap.refused_at >= 0 && (heap.alone ? call == heap.refused_at : call >= heap.refused_at);
}

static struct rattle_tried tried(void *p)
{
    struct rattle_tried it = {p != NULL, p != NULL ? p : &nothing};
    return it;
}

struct rattle_tried rattle_alloc(size_t n, size_t a)
{
    void *p = is_refused() ? NULL : malloc(n != 0 ? n : a);
    heap.live += p != NULL;
    return tried(p);
}

struct rattle_tried rattle_realloc(void *p, size_t kept, size_t n, size_t a)
{
    (void)kept;
    return tried(is_refused() ? NULL : realloc(p, n != 0 ? n : a));
}

void rattle_dealloc(void *p)
{
    heap.live--;
    free(p);
}

static bytes text, block, tree;
static const char *name, *reading;
static uint8_t out[1 << 16];
static csn_event events[1 << 10];

/* What is tried: a call on a handle. */
typedef uint32_t (*call)(csn_rule *rule);

static uint32_t compiles(csn_rule *rule)
{
    csn_why why = {77, 77};
    uint32_t status = compile_file(&text, name, reading, rule, &why);
    if (status == CSN_NO_MEMORY && (why.number != 77 || why.place != 77))
        odd("why for want of memory", why.number, 77);
    return status;
}

static uint32_t shows(csn_rule *rule)
{
    size_t number = 77;
    out[0] = 0x55;
    uint32_t status = csn_show(rule, block.at, block.length, 8 * (uint32_t)block.length, CSN_TEXT, out, sizeof out, &number);
    if (status == CSN_NO_MEMORY && (number != 77 || out[0] != 0x55))
        odd("number for want of memory", number, 77);
    return status;
}

static uint32_t tells(csn_rule *rule)
{
    size_t count = 77, number = 77;
    events[0].node = 77;
    uint32_t status = csn_tell(rule, block.at, block.length, 8 * (uint32_t)block.length, events, 1 << 10, &count, &number);
    if (status == CSN_NO_MEMORY && (count != 77 || number != 77 || events[0].node != 77))
        odd("count for want of memory", count, 77);
    return status;
}

/* The first block of a handle. */
static uint32_t compiles_and_shows(csn_rule *rule)
{
    uint32_t status = compiles(rule);
    return status == CSN_OK ? shows(rule) : status;
}

static uint32_t compiles_and_tells(csn_rule *rule)
{
    uint32_t status = compiles(rule);
    return status == CSN_OK ? tells(rule) : status;
}

static uint32_t writes(csn_rule *rule)
{
    size_t number = 77;
    uint8_t octets[4096] = {0x55};
    uint32_t status = csn_write(rule, tree.at, tree.length, CSN_TEXT, octets, sizeof octets, &number);
    if (status == CSN_NO_MEMORY && (number != 77 || octets[0] != 0x55))
        odd("number for want of memory", number, 77);
    return status;
}

static uint32_t judges(csn_rule *rule)
{
    size_t number = 0;
    return csn_judge(rule, block.at, block.length, 8 * (uint32_t)block.length, &number);
}

/* How many allocations a call asks for where none is refused. */
static long allocations(call it, csn_rule *rule)
{
    heap.calls = 0;
    if (it(rule) != CSN_OK)
        odd("status where memory is there", 1, CSN_OK);
    return heap.calls;
}

/* A call with an allocation refused, on a handle that holds a rule or none. */
static uint32_t try_refused(call it, csn_rule *rule, long at, bool alone)
{
    void *held = rule->at;
    heap.calls = 0;
    heap.alone = alone;
    heap.refused_at = at;
    uint32_t status = it(rule);
    heap.refused_at = -1;
    if (status != CSN_OK && status != CSN_NO_MEMORY)
        odd("status for want of memory", status, CSN_NO_MEMORY);
    if (status == CSN_NO_MEMORY && held != NULL && rule->at != held)
        odd("handle for want of memory", 1, 0);
    return status;
}

/* Refuses the allocations of a call from one on, each alone and with all behind it. Without a rule the handle is empty before
 * each try, and freed behind it. */
static void refuse_each(const char *what, call it, csn_rule *rule, long from, long step)
{
    csn_rule own = {0};
    long live = heap.live, all = allocations(it, rule != NULL ? rule : &own), wanting = 0, done = 0;
    csn_free(&own);
    if (rule != NULL)
        live = heap.live;
    for (long at = from; at < all; at += step) {
        for (int alone = 0; alone < 2; alone++) {
            uint32_t status = try_refused(it, rule != NULL ? rule : &own, at, alone != 0);
            wanting += status == CSN_NO_MEMORY;
            done += status == CSN_OK;
            csn_free(&own);
            if (heap.live > live)
                odd("blocks of memory behind a refusal", (size_t)heap.live, (size_t)live);
        }
    }
    printf("%s: %ld allocations; refused: %ld want of memory, %ld done without\n", what, all - from, wanting, done);
}

int main(int count, char **words)
{
    csn_rule rule = {0};
    if (count != 5 && count != 6)
        return 2;
    text = read_file(words[1]);
    name = words[2];
    reading = words[3];
    block = read_file(words[4]);
    long step = count == 6 ? atol(words[5]) : 1;
    refuse_each("compile", compiles, NULL, 0, step);
    refuse_each("first block", compiles_and_shows, NULL, allocations(compiles, &rule), 1);
    refuse_each("first events", compiles_and_tells, NULL, allocations(compiles, &rule), 1);
    refuse_each("compile again", compiles, &rule, 0, 37 * step);
    allocations(shows, &rule);
    allocations(tells, &rule);
    if (allocations(shows, &rule) + allocations(judges, &rule) + allocations(tells, &rule) != 0)
        odd("allocations of a later block", (size_t)heap.calls, 0);
    size_t length = 0;
    csn_show(&rule, block.at, block.length, 8 * (uint32_t)block.length, CSN_TEXT, out, sizeof out, &length);
    tree.at = out;
    tree.length = length;
    refuse_each("write", writes, &rule, 0, 1);
    csn_free(&rule);
    if (heap.live != 0)
        odd("blocks of memory at the end", (size_t)heap.live, 0);
    free(text.at);
    free(block.at);
    return odd_count != 0;
}
