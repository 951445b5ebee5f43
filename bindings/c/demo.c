/* demo.c - a rule is compiled, blocks are shown and told event by event by it, and a tree is written. bindings/check compares what it prints
 * with demo.out. */
#include "csn.h"
#include <stdio.h>
#include <string.h>

static const char TEXT[] = "<M> ::= <A : bit (3)> 0 <B : bit (4)> ;";

static uint32_t compile(const char *text, const char *name, csn_rule *rule)
{
    csn_why why = {0, 0};
    uint32_t status = csn_compile((const uint8_t *)text, strlen(text), (const uint8_t *)name, strlen(name), CSN_RECEIVED,
                                  rule, &why);
    printf("compile: status %u, number %u, place %u\n", status, why.number, why.place);
    return status;
}

static void show(csn_rule *rule, uint8_t octet, uint32_t form)
{
    uint8_t out[128];
    size_t number = 0;
    uint32_t status = csn_show(rule, &octet, 1, 8, form, out, sizeof out, &number);
    if (status == CSN_OK)
        printf("show: %.*s\n", (int)number, (const char *)out);
    else
        printf("show: status %u, number %zu\n", status, number);
}

static void tell(csn_rule *rule, uint8_t octet)
{
    csn_event events[16];
    size_t count = 0, number = 0;
    uint32_t status = csn_tell(rule, &octet, 1, 8, events, 16, &count, &number);
    if (status != CSN_OK && status != CSN_REFUSED) {
        printf("tell: status %u\n", status);
        return;
    }
    for (const csn_event *it = events; it < events + count && it < events + 16; it++)
        printf("tell: node %u, kind %u, role %u, bits %u from %u, value %llu\n", it->node, it->kind, it->role, it->bits,
               it->place, (unsigned long long)it->value);
    if (status == CSN_REFUSED)
        printf("tell: refused, number %zu\n", number);
}

static void write_tree(csn_rule *rule, const char *tree)
{
    uint8_t out[16] = {0};
    size_t bits = 0;
    uint32_t status = csn_write(rule, (const uint8_t *)tree, strlen(tree), CSN_TEXT, out, sizeof out, &bits);
    printf("write: status %u, number %zu, first octet %02X\n", status, bits, out[0]);
}

static void misfit(csn_rule *rule, const char *tree)
{
    uint32_t path[64];
    size_t count = 0, number = 0;
    uint32_t status = csn_misfit(rule, (const uint8_t *)tree, strlen(tree), CSN_TEXT, path, 64, &count, &number);
    printf("misfit: status %u, number %zu, path ", status, number);
    for (size_t i = 0; i < count; i++)
        printf("/%u", path[i]);
    putchar('\n');
}

/* The rule of the handle goes to a stream, to which a block comes in two pieces. */
static void push(csn_rule *rule, uint8_t octet)
{
    csn_stream stream = {0};
    size_t number = 0;
    uint8_t last = (uint8_t)(octet << 3);
    printf("open: status %u\n", csn_stream_open(rule, &stream));
    uint32_t status = csn_stream_push(&stream, &octet, 1, 3, &number);
    printf("push: status %u, number %zu\n", status, number);
    status = csn_stream_push(&stream, &last, 1, 5, &number);
    printf("push: status %u, number %zu\n", status, number);
    status = csn_stream_end(&stream, &number);
    printf("end: status %u, number %zu\n", status, number);
    csn_stream_free(&stream);
}

static void nodes(csn_rule *rule)
{
    csn_shape shape = {0, 0};
    for (uint32_t node = 0; csn_node(rule, node, &shape) == CSN_OK; node++)
        if (shape.bits != CSN_ANY_BITS)
            printf("node: %u has kind %u and %u bits\n", node, shape.kind, shape.bits);
        else
            printf("node: %u has kind %u\n", node, shape.kind);
}

static void labels(csn_rule *rule)
{
    for (uint32_t node = 0; node < csn_nodes(rule); node++) {
        uint8_t label[64];
        size_t length = 0;
        if (csn_label(rule, node, label, sizeof label, &length) == CSN_OK)
            printf("label: node %u is %.*s\n", node, (int)length, (const char *)label);
    }
}

int main(void)
{
    csn_rule rule = {0};
    if (csn_version() != CSN_VERSION)
        return 1;
    show(&rule, 0xA5, CSN_TEXT);
    compile("<M> ::= ", "M", &rule);
    compile(TEXT, "N", &rule);
    if (compile(TEXT, "M", &rule) != CSN_OK)
        return 1;
    show(&rule, 0xA5, CSN_TEXT);
    show(&rule, 0xA5, CSN_JSON);
    show(&rule, 0xB5, CSN_TEXT);
    tell(&rule, 0xA5);
    tell(&rule, 0xB5);
    write_tree(&rule, "[<A>=3'5 . <B>=4'5]");
    write_tree(&rule, "[<A>=3'5 . <B>=5'5]");
    write_tree(&rule, "[<A>=3'5 . <B>=");
    misfit(&rule, "[<A>=3'5 . <B>=5'5]");
    labels(&rule);
    nodes(&rule);
    push(&rule, 0xA5);
    compile(TEXT, "M", &rule);
    push(&rule, 0xB5);
    csn_free(&rule);
    csn_free(&rule);
    show(&rule, 0xA5, CSN_TEXT);
    return 0;
}
