/* lines.c - answers lines as csn_cli does, and holds the calls against one another.
 *
 * usage: lines show|json|write|unjson FILE NAME READING
 *
 * For `show` and `json` the lines are blocks, else trees. Where a rule is not compiled, one line tells why: of a conflict its
 * kind and its node. Where no block has a tree, `no PATH WHY`
 * without counts. The status is 1 where two calls do not agree. */
#include "common.h"
#include <stdio.h>
#include <stdlib.h>
#include <string.h>

enum { MOST_LINE_BYTES = 1 << 22, MOST_OCTETS = CSN_MOST_BITS / 8, MOST_EVENTS = 1 << 16, MOST_DEPTH = 64 };

static char line[MOST_LINE_BYTES];
static uint8_t octets[MOST_OCTETS], back[MOST_OCTETS];
static uint8_t out[MOST_LINE_BYTES], again[MOST_LINE_BYTES];
static csn_event events[MOST_EVENTS], events_again[MOST_EVENTS + 1];
static uint32_t opened[MOST_DEPTH], depth, end;

static const char *const MISFITS[] = {
    "",           "WrongKind",         "WrongLabel",   "WrongCount", "WrongWidth",
    "WrongSpare", "NoSuchAlternative", "WindowLength", "TooManyBits"};

static uint32_t digit(int c)
{
    return (uint32_t)(c <= '9' ? c - '0' : (c | 32) - 'a' + 10);
}

/* The block of a block line, which is well formed. */
static uint32_t read_block(const char *at, size_t *length)
{
    uint32_t bits;
    *length = 0;
    if (*at == '.')
        return 0;
    for (; *at != '\n' && *at != '/'; at += 2)
        octets[(*length)++] = (uint8_t)(16 * digit(at[0]) + digit(at[1]));
    bits = 8 * (uint32_t)*length;
    return *at == '/' ? bits - 8 + digit(at[1]) : bits;
}

static void write_block(const uint8_t *block, size_t bits)
{
    size_t length = (bits + 7) / 8;
    if (bits == 0)
        fputs("ok .", stdout);
    else
        fputs("ok ", stdout);
    for (size_t i = 0; i < length; i++)
        printf("%02X", block[i]);
    if (bits % 8 != 0)
        printf("/%zu", bits % 8);
    putchar('\n');
}

/* What is shown again by a handle is the same, also where there is less room: then the rest of the buffer stays. */
static void show_again(csn_rule *rule, size_t length, uint32_t bits, uint32_t form, size_t count)
{
    size_t number = 0, room = count / 2;
    memset(again, 0x55, room + 16);
    if (csn_show(rule, octets, length, bits, form, again, room, &number) != CSN_OK || number != count)
        odd("bytes with less room", number, count);
    if (memcmp(again, out, room) != 0 || again[room] != 0x55)
        odd("bytes past the room", again[room], 0x55);
}

/* The text of a block is written as this block. */
static void write_back(csn_rule *rule, size_t length, uint32_t bits, uint32_t form, size_t count)
{
    size_t number = 0;
    uint32_t status = csn_write(rule, out, count, form, back, sizeof back, &number);
    if (status != CSN_OK || number != bits)
        odd("bits written back", status == CSN_OK ? number : 1000000 + status, bits);
    else if (length > 0 && memcmp(back, octets, length) != 0)
        odd("octets written back", back[0], octets[0]);
}

/* What is told again is the same, also where there is less room: then the rest of the array stays. */
static void tell_again(csn_rule *rule, size_t length, uint32_t bits, size_t count)
{
    size_t again_count = 0, number = 0, room = count < MOST_EVENTS ? count / 2 : 0;
    memset(&events_again[room], 0x55, sizeof events_again[room]);
    csn_tell(rule, octets, length, bits, events_again, room, &again_count, &number);
    if (again_count != count || memcmp(events_again, events, room * sizeof events[0]) != 0)
        odd("events with less room", again_count, count);
    if (events_again[room].node != 0x55555555)
        odd("an event past the room", events_again[room].node, 0x55555555);
}

/* The number that some bits of the block write. */
static uint64_t value_of(const csn_event *leaf)
{
    uint64_t value = 0;
    for (uint32_t bit = leaf->place; bit < leaf->place + leaf->bits; bit++)
        value = 2 * value + (octets[bit / 8] >> (7 - bit % 8) & 1);
    return leaf->bits <= 64 ? value : 0;
}

/* The next event of a block, of which the leaves end here: a leaf goes on from there, and a node ends that is the last to have
 * begun. */
static void tell_event(const csn_event *it, uint32_t bits)
{
    if (it->place != end)
        odd("place of an event", it->place, end);
    if (it->kind == CSN_BEGIN && depth < MOST_DEPTH)
        opened[depth++] = it->node;
    else if (it->kind == CSN_END && (depth == 0 || opened[--depth] != it->node))
        odd("node that ends", it->node, depth);
    end += it->bits;
    if (end <= bits && it->value != value_of(it))
        odd("value of a leaf", it->value, value_of(it));
}

/* The leaves of a block have its bits, all of them or those before a place at most. */
static void tell(csn_rule *rule, size_t length, uint32_t bits, uint32_t shown, size_t place)
{
    size_t count = 0, number = 0;
    uint32_t status = csn_tell(rule, octets, length, bits, events, MOST_EVENTS, &count, &number);
    if (status != shown || (status == CSN_REFUSED && number != place))
        odd("status of the events", status, shown);
    end = depth = 0;
    for (size_t i = 0; i < count && i < MOST_EVENTS; i++)
        tell_event(&events[i], bits);
    if (count <= MOST_EVENTS && (status == CSN_OK ? end != bits || depth != 0 : end > place))
        odd("bits in the leaves", end, bits);
    tell_again(rule, length, bits, count);
}

/* A block in three pieces comes to the same. */
static void push_pieces(csn_stream *stream, uint32_t bits, uint32_t shown, size_t place)
{
    size_t number = 0, at = 0;
    uint32_t piece = bits / 3 / 8 * 8, status = CSN_OK;
    for (int i = 0; i < 3; i++, at += piece / 8) {
        uint32_t some = i < 2 ? piece : bits - 2 * piece;
        status = csn_stream_push(stream, octets + at, (some + 7) / 8, some, &number);
        if (status != CSN_OK && (status != CSN_REFUSED || shown != CSN_REFUSED || number != place))
            odd("place of a piece", number, place);
    }
    number = 0;
    status = csn_stream_end(stream, &number);
    if (status != shown || (status == CSN_REFUSED && number != place))
        odd("status of pieces", status, shown);
}

static void show(csn_rule *rule, csn_stream *stream, uint32_t form)
{
    size_t length, number = 0, place = 0;
    uint32_t bits = read_block(line, &length);
    uint32_t status = csn_show(rule, octets, length, bits, form, out, sizeof out, &number);
    uint32_t judged = csn_judge(rule, octets, length, bits, &place);
    if (judged != status || (status == CSN_REFUSED && place != number))
        odd("status of a judge", judged, status);
    tell(rule, length, bits, status, number);
    push_pieces(stream, bits, status, number);
    if (status == CSN_OK) {
        printf("ok %.*s\n", (int)number, (const char *)out);
        show_again(rule, length, bits, form, number);
        write_back(rule, length, bits, form, number);
    } else if (status == CSN_REFUSED) {
        printf("no %zu %s\n", number, number == bits ? "ended" : "bit");
    } else {
        printf("status %u\n", status);
    }
}

/* Where the tree of a line that has no block first misses the rule, and why. */
static void write_misfit(csn_rule *rule, uint32_t form, size_t why)
{
    uint32_t path[64];
    size_t count = 0, number = 0;
    uint32_t status = csn_misfit(rule, (const uint8_t *)line, strcspn(line, "\n"), form, path, 64, &count, &number);
    if (status != CSN_NO_BLOCK || number != why || count > 64)
        odd("reason of a misfit", number, why);
    fputs(count == 0 ? "no /" : "no ", stdout);
    for (size_t i = 0; i < count && i < 64; i++)
        printf("/%u", path[i]);
    printf(" %s\n", why <= 8 ? MISFITS[why] : "");
}

static void write_tree(csn_rule *rule, uint32_t form)
{
    size_t number = 0;
    uint32_t status = csn_write(rule, (const uint8_t *)line, strcspn(line, "\n"), form, back, sizeof back, &number);
    switch (status) {
    case CSN_OK:
        write_block(back, number);
        break;
    case CSN_NO_BLOCK:
        write_misfit(rule, form, number);
        break;
    case CSN_NO_TEXT:
        printf("bad %zu\n", number);
        break;
    case CSN_NO_JSON:
        puts("bad 1");
        break;
    case CSN_NO_TREE:
        puts("bad 2");
        break;
    default:
        printf("status %u\n", status);
    }
}

static int refuse(uint32_t status, const csn_why *why)
{
    if (status == CSN_SYNTAX)
        printf("syntax %u\n", why->place);
    else if (status == CSN_DESCRIPTION)
        printf("description %u %u\n", why->number, why->place);
    else if (status == CSN_CONFLICT)
        printf("conflict %u %u\n", why->number, why->place);
    else
        printf("status %u\n", status);
    return 0;
}

int main(int count, char **words)
{
    csn_rule rule = {0};
    csn_stream stream = {0};
    csn_why why = {0, 0};
    if (count != 5)
        return 2;
    bytes text = read_file(words[2]);
    uint32_t status = compile_file(&text, words[3], words[4], &rule, &why);
    if (status == CSN_OK)
        status = csn_stream_open(&rule, &stream);
    if (status == CSN_OK)
        status = compile_file(&text, words[3], words[4], &rule, &why);
    free(text.at);
    if (status != CSN_OK)
        return refuse(status, &why);
    bool is_json = strcmp(words[1], "json") == 0 || strcmp(words[1], "unjson") == 0;
    bool shows = strcmp(words[1], "show") == 0 || strcmp(words[1], "json") == 0;
    while (fgets(line, sizeof line, stdin) != NULL) {
        if (line[0] == '\n')
            continue;
        if (shows)
            show(&rule, &stream, is_json ? CSN_JSON : CSN_TEXT);
        else
            write_tree(&rule, is_json ? CSN_JSON : CSN_TEXT);
    }
    csn_free(&rule);
    csn_stream_free(&stream);
    return odd_count != 0;
}
