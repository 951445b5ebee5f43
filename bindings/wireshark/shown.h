/* shown.h - a block in Wireshark's tree. */
#ifndef NAMBROIT_SHOWN_H
#define NAMBROIT_SHOWN_H
#include "rules.h"
#include <epan/packet.h>

/* Some octets of a tvb. One of their own would have to be made for each block. */
typedef struct {
    tvbuff_t *tvb;
    int start, length;
} span;

/* Those from one on. */
span span_from(span all, int first);
const guint8 *octets_of(span all);

/* Shows octets as a block of a rule, and gives the item that it has. */
proto_item *show_block(rule *by, span block, packet_info *pinfo, proto_tree *tree);

/* Forgets the memory that is kept from block to block. */
void forget_events(void);
#endif
