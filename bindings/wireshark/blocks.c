/* blocks.c - see blocks.h. Wireshark asks for frames that it has shown again, in any order. So what became of a segment
 * is kept with its frame, and only a frame that is new goes to what waits. */
#include "blocks.h"
#include "fields.h"
#include <epan/proto_data.h>
#include <epan/to_str.h>
#include <string.h>

/* What stands in GSMTAP frames, as in tools/frames.py. */
enum {
    GSMTAP_OCTETS = 16, GSMTAP_VERSION = 2, UM = 1,
    BCCH = 1, CCCH = 2, AGCH = 4, PCH = 5, PACCH = 11, PDCH = 13,
    BLOCK_OCTETS = 23,
    CONTROL = 1, SEGMENTED = 2, /* payload types of the MAC header */
    RADIO_RESOURCE = 6          /* protocol discriminator */
};

const message messages[MESSAGE_COUNT] = {
    {0x19, 3, "si1", "SI 1 Rest Octets"}, {0x02, 3, "si2bis", "SI 2bis Rest Octets"},
    {0x03, 3, "si2ter", "SI 2ter Rest Octets"}, {0x07, 3, "si2quater", "SI 2quater Rest Octets"},
    {0x1B, 3, "si3", "SI 3 Rest Octets"}, {0x1C, 3, "si4", "SI 4 Rest Octets"}, {0x1F, 3, "si7", "SI 7 Rest Octets"},
    {0x18, 3, "si8", "SI 8 Rest Octets"}, {0x04, 6, "si9", "SI 9 Rest Octets"}, {0x00, 3, "si13", "SI 13 Rest Octets"},
    {0x3D, 3, "si16", "SI 16 Rest Octets"}, {0x3E, 3, "si17", "SI 17 Rest Octets"}, {0x3F, 3, "ia", "IA Rest Octets"},
    {0x3A, 3, "iar", "IAR Rest Octets"}, {0x39, 3, "iax", "IAX Rest Octets"}, {0x21, 3, "p1", "P1 Rest Octets"},
    {0x22, 3, "p2", "P2 Rest Octets"}, {0x24, 3, "p3", "P3 Rest Octets"}, {0x20, 3, "ntn", "NT/N Rest Octets"},
};

/* A segment of a message that comes in two (3GPP TS 44.060, clauses 10.3 and 10.4). */
typedef enum { ONLY, FIRST, SECOND, NOT_FINAL } segment_kind;

typedef struct segment {
    guint32 frame;
    int length;
    guint8 body[BLOCK_OCTETS];
    const struct segment *first; /* of a second one, that with which it is joined */
    guint32 other_frame;         /* that of the other segment, or 0 */
} segment;

/* Of each transaction of each downlink, the first segment that waits. */
static wmem_map_t *waiting;

void register_segments(void)
{
    waiting = wmem_map_new_autoreset(wmem_epan_scope(), wmem_file_scope(), wmem_str_hash, g_str_equal);
}

/* Takes a block with a segment, the first time that it comes. */
static segment *take(packet_info *pinfo, guint32 number, const char *downlink, segment_kind kind, span body)
{
    segment *it = p_get_proto_data(wmem_file_scope(), pinfo, nambroit_protocol, number);
    if (it != NULL || kind == NOT_FINAL)
        return it;
    it = wmem_new0(wmem_file_scope(), segment);
    it->frame = pinfo->num;
    it->length = body.length;
    memcpy(it->body, octets_of(body), (size_t)body.length);
    p_add_proto_data(wmem_file_scope(), pinfo, nambroit_protocol, number, it);
    segment *first = wmem_map_remove(waiting, downlink);
    if (kind == FIRST) {
        wmem_map_insert(waiting, wmem_strdup(wmem_file_scope(), downlink), it);
    } else if (kind == SECOND && first != NULL) {
        first->other_frame = it->frame;
        it->other_frame = first->frame;
        it->first = first;
    }
    return it;
}

/* The whole message, whose second segment this is. */
static span joined(const segment *it, tvbuff_t *around, packet_info *pinfo)
{
    int length = it->first->length + it->length;
    guint8 *octets = wmem_alloc(pinfo->pool, (size_t)length);
    memcpy(octets, it->first->body, (size_t)it->first->length);
    memcpy(octets + it->first->length, it->body, (size_t)it->length);
    tvbuff_t *whole = tvb_new_child_real_data(around, octets, (guint)length, length);
    add_new_data_source(pinfo, whole, "Message of two segments");
    return (span){whole, 0, length};
}

/* Shows what `segments` of csn_cli answers to a block that it does not join. */
static proto_item *show_answer(const char *answer, span body, proto_tree *tree)
{
    proto_item *item = proto_tree_add_protocol_format(tree, nambroit_protocol, body.tvb, body.start, body.length,
                                                      "Nambroit, a segment, %s", answer);
    proto_tree *under = proto_item_add_subtree(item, nambroit_tree);
    proto_item_set_generated(proto_tree_add_string(under, answer_field, body.tvb, body.start, body.length, answer));
    return item;
}

static void show_segment(rule *by, span block, packet_info *pinfo, guint32 number, const char *downlink, proto_tree *tree)
{
    guint8 control = octets_of(block)[1];
    guint32 transaction = control >> 2 & 31;
    gboolean is_second = control >> 7 & 1, is_final = control >> 1 & 1;
    segment_kind kind = is_second ? is_final ? SECOND : NOT_FINAL : is_final ? ONLY : FIRST;
    span body = span_from(block, 2 + (control & 1));
    const char *key = wmem_strdup_printf(pinfo->pool, "%s/%u", downlink, transaction);
    const segment *it = take(pinfo, number, key, kind, body);
    proto_item *item;
    if (kind == ONLY)
        item = show_block(by, body, pinfo, tree);
    else if (kind == SECOND && it->first != NULL)
        item = show_block(by, joined(it, block.tvb, pinfo), pinfo, tree);
    else if (kind == FIRST)
        item = show_answer(wmem_strdup_printf(pinfo->pool, "wait %u", transaction), body, tree);
    else
        item = show_answer(kind == SECOND ? "bad 9" : "bad 8", body, tree);
    if (it != NULL && it->other_frame != 0) {
        proto_tree *under = proto_item_get_subtree(item);
        proto_item_set_generated(proto_tree_add_uint(under, segment_field, block.tvb, block.start + 1, 1, it->other_frame));
    }
}

/* Shows a block of packet data, by its GSMTAP header. */
static void show_packet_data(const block_rules *rules, const guint8 *head, span block, packet_info *pinfo, guint32 number,
                             proto_tree *tree)
{
    guint32 arfcn = (guint32)head[4] << 8 | head[5];
    gboolean is_uplink = arfcn >> 14 & 1;
    guint8 payload = octets_of(block)[0] >> 6;
    rule *by = is_uplink ? rules->uplink : rules->downlink;
    if (block.length != BLOCK_OCTETS || by == NULL)
        return;
    if (payload == CONTROL) {
        show_block(by, span_from(block, 1), pinfo, tree);
    } else if (payload == SEGMENTED && !is_uplink) {
        const char *from = address_to_str(pinfo->pool, &pinfo->src);
        const char *downlink = wmem_strdup_printf(pinfo->pool, "%s %u/%u", from, arfcn, head[3] & 7u);
        show_segment(by, block, pinfo, number, downlink, tree);
    }
}

/* Shows the rest octets of a message. Its first octet tells how many octets of it come before them. */
static void show_rest_octets(const block_rules *rules, span all, packet_info *pinfo, proto_tree *tree)
{
    const guint8 *octets = octets_of(all);
    if (all.length <= 3 || octets[1] != RADIO_RESOURCE)
        return;
    for (int at = 0; at < MESSAGE_COUNT; at++) {
        int before = MAX(messages[at].before, 1 + (octets[0] >> 2));
        if (messages[at].type != octets[2])
            continue;
        if (rules->rest_octets[at] != NULL && before < all.length)
            show_block(rules->rest_octets[at], span_from(all, before), pinfo, tree);
        return;
    }
}

void show_datagram(const block_rules *rules, span datagram, packet_info *pinfo, guint32 number, proto_tree *tree)
{
    const guint8 *head = octets_of(datagram);
    if (datagram.length < GSMTAP_OCTETS || head[0] != GSMTAP_VERSION || head[2] != UM)
        return;
    int octets = 4 * head[1];
    if (octets < GSMTAP_OCTETS || octets >= datagram.length)
        return;
    gboolean is_uplink = head[4] >> 6 & 1;
    switch (head[12]) {
    case PACCH:
    case PDCH:
        show_packet_data(rules, head, span_from(datagram, octets), pinfo, number, tree);
        break;
    case BCCH:
    case CCCH:
    case AGCH:
    case PCH:
        if (!is_uplink)
            show_rest_octets(rules, span_from(datagram, octets), pinfo, tree);
        break;
    default:
        break;
    }
}
