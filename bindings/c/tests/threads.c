/* threads.c - threads with a stack of 64 KiB, a handle each; then each handle goes to another thread, which uses and frees it.
 *
 * usage: threads FILE NAME READING BLOCK_FILE
 *
 * Prints how much stack was used at most, and ends with status 1 where a thread saw something else than the others. */
#define _POSIX_C_SOURCE 200809L
#include "common.h"
#include <pthread.h>
#include <stdio.h>
#include <stdlib.h>
#include <string.h>

enum { THREADS = 8, STACK = 64 * 1024, TURNS = 200, MARK = 0xAA, ROOM = 1 << 16 };

static bytes text, block;
static const char *name, *reading;

/* What a thread has: a handle, and what it saw. */
typedef struct worker {
    csn_rule rule;
    uint32_t statuses[3];
    uint8_t *out;
    size_t length;
} worker;

static worker workers[THREADS];

static void use(worker *it, csn_rule *rule)
{
    size_t bits = 0;
    uint8_t back[4096];
    uint32_t wanted = 8 * (uint32_t)block.length;
    it->statuses[1] = csn_show(rule, block.at, block.length, wanted, CSN_JSON, it->out, ROOM, &it->length);
    it->statuses[2] = csn_write(rule, it->out, it->length, CSN_JSON, back, sizeof back, &bits);
    if (bits != wanted)
        it->statuses[2] = 99;
}

static void *begin(void *at)
{
    worker *it = at;
    csn_why why = {0, 0};
    it->statuses[0] = compile_file(&text, name, reading, &it->rule, &why);
    use(it, &it->rule);
    return NULL;
}

/* Goes on with the handle of the next thread. */
static void *go_on(void *at)
{
    worker *it = at;
    worker *next = &workers[(it - workers + 1) % THREADS];
    for (int turn = 0; turn < TURNS; turn++)
        use(it, &next->rule);
    csn_free(&next->rule);
    return NULL;
}

/* Runs each worker in a thread of its own, and tells the most stack that one used. */
static size_t run(void *(*work)(void *))
{
    pthread_t threads[THREADS];
    uint8_t *stacks[THREADS];
    size_t most = 0;
    for (size_t k = 0; k < THREADS; k++) {
        pthread_attr_t how;
        stacks[k] = aligned_alloc(4096, STACK);
        if (stacks[k] == NULL)
            exit(2);
        memset(stacks[k], MARK, STACK);
        pthread_attr_init(&how);
        if (pthread_attr_setstack(&how, stacks[k], STACK) != 0 || pthread_create(&threads[k], &how, work, &workers[k]) != 0)
            exit(2);
        pthread_attr_destroy(&how);
    }
    for (size_t k = 0; k < THREADS; k++) {
        size_t low = 0;
        pthread_join(threads[k], NULL);
        while (low < STACK && stacks[k][low] == MARK)
            low++;
        most = STACK - low > most ? STACK - low : most;
        free(stacks[k]);
    }
    return most;
}

int main(int count, char **words)
{
    if (count != 5)
        return 2;
    text = read_file(words[1]);
    name = words[2];
    reading = words[3];
    block = read_file(words[4]);
    for (size_t k = 0; k < THREADS; k++) {
        workers[k].out = malloc(ROOM);
        if (workers[k].out == NULL)
            return 2;
    }
    size_t first = run(begin), second = run(go_on);
    for (size_t k = 0; k < THREADS; k++) {
        for (size_t i = 0; i < 3; i++)
            if (workers[k].statuses[i] != CSN_OK)
                odd("status in a thread", workers[k].statuses[i], CSN_OK);
        if (workers[k].rule.at != NULL)
            odd("handle behind a free", 1, 0);
        if (workers[k].length != workers[0].length || memcmp(workers[k].out, workers[0].out, workers[0].length) != 0)
            odd("bytes in a thread", workers[k].length, workers[0].length);
    }
    for (size_t k = 0; k < THREADS; k++)
        free(workers[k].out);
    free(text.at);
    free(block.at);
    printf("%d threads, at most %zu of %d octets of stack\n", THREADS, first > second ? first : second, STACK);
    return odd_count != 0;
}
