/* shown.c - see shown.h. The events of a block are walked, and what is open is kept as the path to the next leaf: labels
 * and turns, which have an item each once a leaf is in them, and alternatives, which are told where they begin. */
#include "shown.h"
#include "fields.h"
#include "text.h"

enum {
    MOST_NUMBER = 64, /* bits of a leaf that has a number */
    MOST_PATH = 256,  /* steps to a leaf; a rule has at most 64 nodes inside each other, with two steps each */
    FIRST_ROOM = 1024
};

typedef enum { LABEL, TURN, ALTERNATIVE } step_kind;

typedef struct {
    step_kind kind;
    const rule_node *node; /* of a label */
    guint32 number;        /* of a turn or an alternative */
    gboolean is_told;      /* of an alternative, that an item tells it */
    proto_item *item;      /* once a leaf is in it: its item, where it has one */
    proto_tree *tree;      /* then: the tree of its parts */
    int first;             /* then: its first octet */
} step;

/* A block that is shown. */
typedef struct {
    const rule *by;
    span block;
    const guint8 *octets;
    proto_tree *tree;
    wmem_allocator_t *pool;
    gboolean is_drawn;      /* the tree is looked at; else only what is asked for gets an item, and none a text */
    step path[MOST_PATH];
    int length;             /* of the path */
    int made;               /* how much of it leads to the part round the last leaf */
    int told;               /* how much of it has a leaf behind it */
    int begun[MOST_PATH];   /* how long it was before each open node */
    int depth;              /* of open nodes */
    int till;               /* how many octets there are up to the end of the last leaf */
} shown;

static const label_fields no_fields = {-1, -1, -1};

/* The events of the block that was read last. */
static csn_event *events;
static size_t room;

void forget_events(void)
{
    g_free(events);
    events = NULL;
    room = 0;
}

/* ---- octets */

span span_from(span all, int first)
{
    return (span){all.tvb, all.start + first, all.length - first};
}

const guint8 *octets_of(span all)
{
    return tvb_get_ptr(all.tvb, all.start, all.length);
}

/* ---- texts */

/* Begins the text of an item. Wireshark's own call would go through it twice. */
static void begin_text(text *it, proto_item *item)
{
    field_info *info = PITEM_FINFO(item);
    if (info->rep == NULL)
        info->rep = wmem_new(PNODE_POOL(item), item_label_t);
    text_begin(it, info->rep->representation, sizeof info->rep->representation);
}

/* The path, as csn_explain tells it. */
static void add_path(text *to, const shown *it)
{
    for (int at = 0; at < it->length; at++) {
        const step *one = &it->path[at];
        if (one->kind == LABEL) {
            text_add(to, at == 0 ? "" : ".");
            text_add(to, one->node->label);
            continue;
        }
        text_add_letter(to, one->kind == TURN ? '[' : '#');
        text_add_number(to, one->number);
        text_add(to, one->kind == TURN ? "]" : "");
    }
}

/* The alternatives that were not told yet. */
static void add_alternatives(text *to, const shown *it)
{
    for (int at = it->told; at < it->length; at++) {
        if (it->path[at].kind == ALTERNATIVE && !it->path[at].is_told) {
            text_add(to, ", alternative ");
            text_add_number(to, it->path[at].number);
        }
    }
}

static gboolean has_number(const csn_event *leaf)
{
    return leaf->bits > 0 && leaf->bits <= MOST_NUMBER;
}

/* The value of a leaf, with its label, or else its kind. */
static void add_value(text *to, const shown *it, const csn_event *leaf, const char *label)
{
    text_add(to, label != NULL ? label : kind_titles[leaf->kind]);
    text_add(to, ": ");
    if (label == NULL || !has_number(leaf)) {
        text_add_bits(to, it->octets, leaf->place, leaf->bits);
        return;
    }
    text_add_number(to, leaf->value);
    if (leaf->bits > 8) {
        text_add(to, " (0x");
        text_add_hex(to, leaf->value, (int)(leaf->bits + 3) / 4);
        text_add(to, ")");
    }
}

/* The bits of a leaf, as long as they are. */
static const char *all_bits(const shown *it, const csn_event *leaf)
{
    char *bits = wmem_alloc(it->pool, leaf->bits + 1);
    write_bits(bits, it->octets, leaf->place, leaf->bits);
    bits[leaf->bits] = '\0';
    return bits;
}

/* ---- items */

/* The octet in which a bit is; the last one of the block for what is behind it. */
static int octet_of(const shown *it, guint32 place)
{
    return MIN((int)(place / 8), it->block.length - 1);
}

/* How many octets there are from one on to the end of the last leaf; one at least. */
static int octets_from(const shown *it, int first)
{
    return MAX(it->till - first, 1);
}

/* The text of a label or a turn, with the alternative that comes right behind it in the path. */
static void add_title(text *to, const step *one, step *chosen)
{
    if (one->kind == LABEL) {
        text_add(to, one->node->label);
    } else {
        text_add_letter(to, '[');
        text_add_number(to, one->number);
        text_add_letter(to, ']');
    }
    if (chosen != NULL) {
        text_add(to, ": alternative ");
        text_add_number(to, chosen->number);
        chosen->is_told = TRUE;
    }
}

/* Makes the item of a label or a turn, where one is wanted. */
static proto_item *make_item(shown *it, int at, proto_tree *around, int first)
{
    const step *one = &it->path[at];
    step *chosen = at + 1 < it->length && it->path[at + 1].kind == ALTERNATIVE ? &it->path[at + 1] : NULL;
    const label_fields *fields = one->kind == LABEL ? &one->node->fields : &no_fields;
    gboolean has_choice = chosen != NULL && fields->number != -1;
    int field = has_choice ? fields->number : fields->group, length = octets_from(it, first);
    proto_item *item = NULL;
    if (!it->is_drawn && (field == -1 || !proto_field_is_referenced(around, field)))
        return NULL;
    if (has_choice)
        item = proto_tree_add_uint64(around, field, it->block.tvb, it->block.start + first, length, chosen->number);
    else if (field != -1)
        item = proto_tree_add_item(around, field, it->block.tvb, it->block.start + first, length, ENC_NA);
    else
        proto_tree_add_subtree(around, it->block.tvb, it->block.start + first, length, nambroit_tree, &item, "");
    if (it->is_drawn) {
        text title;
        begin_text(&title, item);
        add_title(&title, one, chosen);
    }
    return item;
}

/* The tree of the part round a leaf, to which this much of the path leads. */
static proto_tree *part_of(shown *it, int length, int first)
{
    proto_tree *around = it->made > 0 ? it->path[it->made - 1].tree : it->tree;
    for (; it->made < length; it->made++) {
        step *one = &it->path[it->made];
        one->first = first;
        one->item = one->kind != ALTERNATIVE ? make_item(it, it->made, around, first) : NULL;
        one->tree = one->item != NULL ? proto_item_add_subtree(one->item, nambroit_tree) : around;
        around = one->tree;
    }
    return around;
}

/* Adds the item of a leaf, where one is wanted: its value is its number, or else its bits. */
static proto_item *add_leaf(const shown *it, const csn_event *leaf, const label_fields *fields, proto_tree *around)
{
    gboolean is_number = has_number(leaf) && fields->number != -1, is_bits = !has_number(leaf) && fields->bits != -1;
    int field = is_number ? fields->number : is_bits ? fields->bits : kind_fields[leaf->kind];
    int first = octet_of(it, leaf->place), length = octets_from(it, first);
    if (!it->is_drawn && !proto_field_is_referenced(around, field))
        return NULL;
    if (is_number)
        return proto_tree_add_uint64(around, field, it->block.tvb, it->block.start + first, length, leaf->value);
    return proto_tree_add_string(around, field, it->block.tvb, it->block.start + first, length, all_bits(it, leaf));
}

/* Shows a leaf, to whose part the path leads. */
static void show_leaf(shown *it, const csn_event *leaf)
{
    const rule_node *before = leaf->node > 0 ? &it->by->nodes[leaf->node - 1] : NULL;
    const char *label = before != NULL ? before->label : NULL;
    it->till = (int)((leaf->place + leaf->bits + 7) / 8);
    proto_tree *around = part_of(it, label != NULL ? it->length - 1 : it->length, octet_of(it, leaf->place));
    proto_item *item = add_leaf(it, leaf, before != NULL ? &before->fields : &no_fields, around);
    if (it->is_drawn) {
        text line;
        begin_text(&line, item);
        text_add_mask(&line, it->octets, leaf->place, leaf->bits);
        add_value(&line, it, leaf, label);
        add_alternatives(&line, it);
    }
    it->told = it->length;
}

/* ---- events */

static void go_on(shown *it, step one)
{
    if (it->length < MOST_PATH)
        it->path[it->length++] = one;
}

/* Goes to a node, by what it is of the node round it. */
static void go_to(shown *it, const csn_event *event)
{
    if (event->role == CSN_ALTERNATIVE)
        go_on(it, (step){.kind = ALTERNATIVE, .number = event->number});
    else if (event->role == CSN_TURN)
        go_on(it, (step){.kind = TURN, .number = event->number});
}

/* Goes back to where the path was so long. The items that were made get the octets up to the last leaf. */
static void go_back(shown *it, int length)
{
    while (it->length > length) {
        const step *one = &it->path[--it->length];
        if (one->item != NULL)
            proto_item_set_len(one->item, octets_from(it, one->first));
    }
    it->made = MIN(it->made, length);
    it->told = MIN(it->told, length);
}

static void show_event(shown *it, const csn_event *event)
{
    if (event->kind == CSN_END) {
        go_back(it, it->begun[--it->depth]);
        return;
    }
    const rule_node *node = &it->by->nodes[event->node];
    int length = it->length;
    go_to(it, event);
    if (event->kind != CSN_BEGIN) {
        show_leaf(it, event);
        go_back(it, length);
        return;
    }
    it->begun[it->depth++] = length;
    if (node->label != NULL)
        go_on(it, (step){.kind = LABEL, .node = node});
}

/* Shows where the block is refused. */
static void show_refusal(shown *it, packet_info *pinfo, guint32 place, guint32 bits)
{
    int at = it->block.start + octet_of(it, place);
    proto_item *item = proto_tree_add_uint(it->tree, refused_field, it->block.tvb, at, 1, place);
    if (it->is_drawn) {
        text line;
        begin_text(&line, item);
        if (place < bits)
            text_add_mask(&line, it->octets, place, 1);
        text_add(&line, "Refused at bit ");
        text_add_number(&line, place);
        text_add(&line, place < bits ? "" : ", where the block ends");
        text_add(&line, it->length > 0 ? ", at " : "");
        add_path(&line, it);
    }
    expert_add_info_format(pinfo, item, &refusal_expert, "Refused at bit %u", place);
}

/* Nothing of a block. Only as much of the path is ever looked at as it is long. */
static void begin(shown *it, const rule *by, span block, wmem_allocator_t *pool, proto_tree *tree)
{
    it->by = by;
    it->block = block;
    it->octets = octets_of(block);
    it->tree = tree;
    it->pool = pool;
    it->is_drawn = PTREE_DATA(tree)->visible;
    it->length = it->made = it->told = it->depth = it->till = 0;
}

/* The status of a block, all of whose events are kept then. */
static guint32 tell_block(rule *by, span block, size_t *count, size_t *place)
{
    const guint8 *octets = octets_of(block);
    guint32 length = (guint32)block.length;
    guint32 status = csn_tell(&by->handle, octets, length, 8 * length, events, room, count, place);
    if (*count <= room)
        return status;
    room = MAX(*count, FIRST_ROOM);
    events = g_renew(csn_event, events, room);
    return csn_tell(&by->handle, octets, length, 8 * length, events, room, count, place);
}

/* The status of a block, with its events where the tree is looked at, or any field of the plugin is asked for. */
static guint32 read_block(rule *by, span block, proto_tree *tree, size_t *count, size_t *place)
{
    if (by->fault != NULL)
        return CSN_NO_RULE;
    if (proto_field_is_referenced(tree, nambroit_protocol))
        return tell_block(by, block, count, place);
    return csn_judge(&by->handle, octets_of(block), (guint32)block.length, 8 * (guint32)block.length, place);
}

static const char *answer_to(const rule *by, wmem_allocator_t *pool, guint32 status, guint32 place, guint32 bits)
{
    if (status == CSN_OK)
        return "ok";
    if (status == CSN_REFUSED)
        return wmem_strdup_printf(pool, "no %u %s", place, place < bits ? "bit" : "ended");
    return by->fault != NULL ? by->fault : status == CSN_NO_MEMORY ? "no memory" : "no block";
}

/* The item of a block. */
static proto_item *add_block(const rule *by, span block, const char *answer, proto_tree *tree)
{
    proto_item *item = proto_tree_add_item(tree, nambroit_protocol, block.tvb, block.start, block.length, ENC_NA);
    if (PTREE_DATA(tree)->visible) {
        text line;
        begin_text(&line, item);
        text_add(&line, "Nambroit, ");
        text_add(&line, by->name);
        text_add(&line, ", ");
        text_add(&line, answer);
    }
    return item;
}

/* Adds what is told of a block beside its parts. */
static void add_about(const shown *it, int field, const char *told)
{
    const span *all = &it->block;
    proto_item_set_generated(proto_tree_add_string(it->tree, field, all->tvb, all->start, all->length, told));
}

proto_item *show_block(rule *by, span block, packet_info *pinfo, proto_tree *tree)
{
    guint32 bits = 8 * (guint32)block.length;
    size_t count = 0, place = 0;
    guint32 status = read_block(by, block, tree, &count, &place);
    const char *answer = answer_to(by, pinfo->pool, status, (guint32)place, bits);
    proto_item *item = add_block(by, block, answer, tree);
    shown it;
    begin(&it, by, block, pinfo->pool, proto_item_add_subtree(item, nambroit_tree));
    add_about(&it, rule_field, by->name);
    add_about(&it, answer_field, answer);
    for (size_t at = 0; at < count; at++)
        show_event(&it, &events[at]);
    if (status == CSN_REFUSED)
        show_refusal(&it, pinfo, (guint32)place, bits);
    else if (status != CSN_OK)
        expert_add_info_format(pinfo, item, &fault_expert, "Not read: %s", answer);
    go_back(&it, 0);
    return item;
}
