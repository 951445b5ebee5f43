/* csn.h - Nambroit for C: a rule of a CSN.1 description is compiled into a handle, and by it blocks are judged, told event by
 * event, shown as text or JSON, and written from either. bindings/README.md says how the library is built and linked.
 *
 * The library asks its host for memcpy, memmove, memset and the three functions at the end (heap.c has them over malloc), and
 * for nothing else: it has no thread, no file, no variable of its own, and no exit, abort, signal or longjmp.
 *
 * PROVED of each function, for all arguments that keep the duties below: it reads and writes only what is passed and its own
 * memory, it returns, and what its comment says behind "Proved:". What stands behind "Tested:" is only tested.
 *
 * DUTIES OF THE CALLER, which nothing checks:
 *  1. A pointer with a length is not null, also where the length is 0, and points to so many bytes, which can be read
 *     (const) or read and written, for the whole call; a length is below 2^63. Each other pointer points to one object that
 *     can be written. What can be written overlaps nothing else that is passed.
 *  2. A csn_rule is all zero, or as the last call left it. It is not copied and then used twice, and not looked into.
 *  3. One call at a time uses a csn_rule. Other threads may use other handles meanwhile, and a handle may go to another thread,
 *     which is proved.
 *  4. The three functions at the end come from one allocator, and align as malloc does (16).
 *  5. No call is made from a signal handler, nor in a forked child of a process with threads.
 *  6. There are 64 KiB of stack. (The tests see what is used.)
 *
 * A number is not told, and stays as it was, unless the comment says what it is. */
#ifndef CSN_H
#define CSN_H
#include <stdbool.h>
#include <stddef.h>
#include <stdint.h>
#ifdef __cplusplus
extern "C" {
#endif

/* The version of this header. It rises where a program that was made for an earlier one might not work. */
#define CSN_VERSION 1

/* The limits: bytes of a description, bits of a block, bytes of the text or JSON of a tree. */
#define CSN_MOST_DESCRIPTION 262144
#define CSN_MOST_BITS 524288
#define CSN_MOST_TREE 16777216

/* A handle: csn_rule rule = {0}; is an empty one. */
typedef struct csn_rule {
    void *at;
} csn_rule;

/* A handle of a block that comes in pieces: csn_stream stream = {0}; is an empty one. */
typedef struct csn_stream {
    void *at;
} csn_stream;

/* Why a rule is not compiled: the numbers that the program's lines tell (docs/ANSWERS.md). */
typedef struct csn_why {
    uint32_t number;
    uint32_t place;
} csn_why;

/* A node of a rule. */
typedef struct csn_shape {
    uint32_t kind; /* of a leaf as in csn_kind, of another node as in csn_node_kind */
    uint32_t bits; /* how many bits it has, where it is a leaf that has as many in all blocks; else CSN_ANY_BITS */
} csn_shape;

#define CSN_ANY_BITS 0xFFFFFFFFu

/* The kinds of node that are no leaves. */
enum csn_node_kind {
    CSN_NULL = 7, /* it takes no bits */
    CSN_SEQUENCE = 8,
    CSN_CHOICE = 9,
    CSN_TIMES = 10, /* a part as many times as counted */
    CSN_MANY = 11,  /* a part any number of times */
    CSN_TRUNCATION = 12,
    CSN_WINDOW = 13, /* a part with as many bits as counted */
    CSN_LABEL = 14
};

/* An event of a block. A node of the rule is a leaf, which takes bits, or has parts; a leaf is told as it ends, and each other
 * node where it begins and where it ends. */
typedef struct csn_event {
    uint32_t node;   /* the number of the node, as at csn_label */
    uint32_t kind;   /* as in csn_kind */
    uint32_t role;   /* what it is of the node round it, as in csn_role; 0 at CSN_END */
    uint32_t number; /* of an alternative or of a turn, from 0; else 0 */
    uint32_t place;  /* the first bit of a leaf; at CSN_BEGIN and CSN_END the next bit; from 0 */
    uint32_t bits;   /* how many bits a leaf has; else 0 */
    uint64_t value;  /* the number that they write, the first bit most significant; 0 where they are more than 64 */
} csn_event;

/* What an event is of: the beginning or the end of a node with parts, or a leaf of a kind. */
enum csn_kind {
    CSN_BEGIN = 0,
    CSN_LITERAL = 1, /* bits that the rule fixes */
    CSN_SPARE = 2,   /* one spare bit */
    CSN_FIELD = 3,
    CSN_REST = 4,    /* any bits to the end */
    CSN_PADDING = 5, /* spare padding to the end */
    CSN_END = 6
};

/* What a node is of the one round it. */
enum csn_role {
    CSN_ROOT = 0, /* no node is round it */
    CSN_PART = 1,
    CSN_ALTERNATIVE = 2, /* of a choice */
    CSN_TURN = 3         /* of a repetition */
};

/* A reading: what a receiver must take, or what a sender may write. */
enum csn_reading { CSN_RECEIVED = 0, CSN_SENT = 1 };

/* A form of a tree. */
enum csn_form { CSN_TEXT = 0, CSN_JSON = 1 };

enum csn_status {
    CSN_OK = 0,
    CSN_NO_RULE = 1,      /* the handle is empty */
    CSN_NO_MEMORY = 2,
    CSN_BAD_ARGUMENT = 3, /* there is no such reading or form; or no block: more bits than octets, or than CSN_MOST_BITS */
    CSN_SYNTAX = 4,       /* the text has no rules; why->place: a byte of it, from 0 */
    CSN_DESCRIPTION = 5,  /* the rules are refused; why->number: the reason, 1 to 13; why->place: a byte of the text */
    CSN_CONFLICT = 6,     /* the rule is not certified; why->number: the kind, 1 to 6; why->place: the node, from 0 */
    CSN_TOO_LONG = 7,     /* more than CSN_MOST_DESCRIPTION bytes, or CSN_MOST_TREE */
    CSN_REFUSED = 8,      /* the block has no tree; *number: how many of its bits can be followed, all where it ends too early */
    CSN_NO_BLOCK = 9,     /* no block has the tree; *number: the reason, as in csn_misfit */
    CSN_NO_LABEL = 10,    /* there is no such node, or it has no label */
    CSN_NO_TEXT = 11,     /* the bytes are the text of no tree; *number: how many of them begin one */
    CSN_NO_JSON = 12,     /* the bytes are no JSON */
    CSN_NO_TREE = 13,     /* the JSON shows no tree */
    CSN_NO_NODE = 14      /* there is no such node */
};

/* Why a tree first misses a description, as the lines of the program name it. */
enum csn_misfit {
    CSN_WRONG_KIND = 1,
    CSN_WRONG_LABEL = 2,
    CSN_WRONG_COUNT = 3,
    CSN_WRONG_WIDTH = 4,
    CSN_WRONG_SPARE = 5,
    CSN_NO_SUCH_ALTERNATIVE = 6,
    CSN_WINDOW_LENGTH = 7,
    CSN_TOO_MANY_BITS = 8
};

/* The version of the library; a program compares it with CSN_VERSION. */
uint32_t csn_version(void);

/* Compiles the rule `name` of a text, and frees what the handle held.
 * Proved: at CSN_OK the handle holds a certified description of that rule, by which any bits have at most one tree. At any
 * other status it holds what it held, and at CSN_SYNTAX, CSN_DESCRIPTION, CSN_CONFLICT and CSN_TOO_LONG the reason and the
 * place are those that the definitions give. */
uint32_t csn_compile(const uint8_t *text, size_t text_len, const uint8_t *name, size_t name_len, uint32_t reading,
                     csn_rule *rule, csn_why *why);

/* Proved: the handle is empty. An empty one stays so. Tested: what it held is freed. */
void csn_free(csn_rule *rule);

/* A block is the first `bits` bits of its octets, the most significant bit of an octet first.
 * Proved: the handle holds what it held. At CSN_OK the block has a tree; at CSN_REFUSED it has none, and *number bits, not one
 * more, can be followed. Tested: no memory is taken. */
uint32_t csn_judge(csn_rule *rule, const uint8_t *octets, size_t octets_len, uint32_t bits, size_t *number);

/* The events of a block in the order of its bits: its leaves lie one behind another, and each bit lies in one. There are *count
 * events, of which the first out_len stand in out. Where the node before that of a leaf has a label, it is that of the leaf.
 * Proved: the handle holds what it held. At CSN_OK the events are those of the one tree of the block. At CSN_REFUSED, which is
 * as at csn_judge, they are those with which each block begins that goes on from the place. The rest of out is as it was. At
 * any other status out and *count are as they were. Tested: from the second block on no memory is taken, unless there are more
 * events than before. */
uint32_t csn_tell(csn_rule *rule, const uint8_t *octets, size_t octets_len, uint32_t bits,
                  csn_event *out, size_t out_len, size_t *count, size_t *number);

/* The tree of a block as text or JSON, with no byte 0 behind. It has *number bytes, of which the first out_len stand in out.
 * Proved: the handle holds what it held. At CSN_OK out begins with the text of the one tree of the block, as far as there is
 * room, whose length is *number, and the rest of out is as it was. At any other status out is as it was, and CSN_REFUSED is
 * as at csn_judge. Tested: from the second block on no memory is taken, unless the text is longer than any before. */
uint32_t csn_show(csn_rule *rule, const uint8_t *octets, size_t octets_len, uint32_t bits, uint32_t form,
                  uint8_t *out, size_t out_len, size_t *number);

/* The block of a tree, from its text or its JSON. It has *number bits, of which those of the first out_len octets stand in out.
 * Proved: the handle holds what it held. At CSN_OK the bytes are such a text, and out begins with the octets of the block that
 * has the tree, as far as there is room; the bits behind the last of the block are 0. At any other status out is as it was;
 * at CSN_NO_BLOCK no block has the tree, and the reason is that of its first misfit. */
uint32_t csn_write(csn_rule *rule, const uint8_t *bytes, size_t bytes_len, uint32_t form,
                   uint8_t *out, size_t out_len, size_t *number);

/* Where a tree first misses the rule. It answers as csn_write, of which it writes nothing; at CSN_NO_BLOCK it tells besides the
 * path from the root to there: at each tree the number of the next one in it, from 0, and 0 below an alternative and below a
 * label. The path has *count steps, at most 64, of which the first out_len stand in out.
 * Proved: all of this, and that the handle holds what it held. At any other status out and *count are as they were. */
uint32_t csn_misfit(csn_rule *rule, const uint8_t *bytes, size_t bytes_len, uint32_t form,
                    uint32_t *out, size_t out_len, size_t *count, size_t *number);

/* Proved: the number of nodes of the rule, and 0 of an empty handle, which holds what it held. */
uint32_t csn_nodes(csn_rule *rule);

/* What a node is.
 * Proved: all that csn_shape says; the handle holds what it held; and CSN_NO_NODE where there is none, with *shape as it was. */
uint32_t csn_node(csn_rule *rule, uint32_t node, csn_shape *shape);

/* The label of a node, which are numbered from 0. It has *number bytes, of which the first out_len stand in out.
 * Proved: all of this; the handle holds what it held; and CSN_NO_LABEL where there is none, with out as it was. */
uint32_t csn_label(csn_rule *rule, uint32_t node, uint8_t *out, size_t out_len, size_t *number);

/* The calls for a block that comes in pieces. A stream holds the rule, and what is known of the bits so far; it takes no memory
 * for them. The duties of a csn_rule are those of a csn_stream. */

/* Gives the rule of a handle to a stream, and frees what the stream held. No bits have come.
 * Proved: at CSN_OK the stream holds the rule, and the handle is empty. At any other status both hold what they held. */
uint32_t csn_stream_open(csn_rule *rule, csn_stream *stream);

/* Forgets the block, of which some bits may have come. Proved: no bits have come, and the stream holds its rule. */
uint32_t csn_stream_begin(csn_stream *stream);

/* The next bits of the block: the first `bits` of the octets.
 * Proved: at CSN_OK all bits so far can be followed; at CSN_REFUSED *number of them, not one more, and further bits change
 * nothing until the block ends. At CSN_TOO_LONG, where the bits would be more than CSN_MOST_BITS, and at any other status the
 * stream holds what it held. */
uint32_t csn_stream_push(csn_stream *stream, const uint8_t *octets, size_t octets_len, uint32_t bits, size_t *number);

/* The block has ended. Proved: it is judged as csn_judge judges all its bits at once; no bits have come then of the next. */
uint32_t csn_stream_end(csn_stream *stream, size_t *number);

/* Proved: the stream is empty. Tested: what it held is freed. */
void csn_stream_free(csn_stream *stream);

/* What the library asks of its host: a block of n bytes (of a, where n is 0). ok says whether there is one, and p is not null
 * in either case. So a host sets its own budget, arena or faults here. */
struct rattle_tried {
    bool ok;
    void *p;
};
struct rattle_tried rattle_alloc(size_t n, size_t a);
struct rattle_tried rattle_realloc(void *p, size_t kept, size_t n, size_t a);
void rattle_dealloc(void *p);

#ifdef __cplusplus
}
#endif
#endif
