/* blocks.h - the blocks in GSMTAP datagrams. */
#ifndef NAMBROIT_BLOCKS_H
#define NAMBROIT_BLOCKS_H
#include "rules.h"
#include "shown.h"
#include <epan/packet.h>

/* The messages that end in rest octets. */
typedef struct {
    guint8 type;
    guint8 before;            /* how many octets come before the rest octets at least */
    const char *preference;
    const char *rule_name;
} message;

#define MESSAGE_COUNT 19
extern const message messages[MESSAGE_COUNT];

/* The rule for each kind of block, or NULL where none is wanted. */
typedef struct {
    rule *uplink, *downlink, *rest_octets[MESSAGE_COUNT];
} block_rules;

/* Shows the block in the payload of a UDP datagram, where it has one. `number` tells apart those of one frame. */
void show_datagram(const block_rules *rules, span datagram, packet_info *pinfo, guint32 number, proto_tree *tree);

/* Sees to it that segments are forgotten with the capture that they are of. */
void register_segments(void);
#endif
