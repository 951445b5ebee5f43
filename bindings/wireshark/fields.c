/* fields.c - see fields.h. */
#include "fields.h"
#include <string.h>

int nambroit_protocol = -1, answer_field = -1, rule_field = -1, refused_field = -1, segment_field = -1;
int kind_fields[CSN_PADDING + 1] = {-1, -1, -1, -1, -1, -1};
const char *const kind_titles[CSN_PADDING + 1] = {"", "Literal", "Spare", "Field", "Rest", "Padding"};
gint nambroit_tree = -1;
expert_field refusal_expert = EI_INIT, fault_expert = EI_INIT;

static GHashTable *fields_by_label; /* of each label its label_fields */
static GHashTable *types_by_name;   /* of each name that is taken, the type of its fields plus 1 */
static GPtrArray *made;             /* the hf_register_info of each label's field */

#define MOST_NUMBER 64 /* bits of a leaf that has a number */
#define OF(title, name, type, base) {title, name, type, base, NULL, 0, NULL, HFILL}

void register_fields(void)
{
    static hf_register_info block_fields[] = {
        {&answer_field, OF("Answer", "nambroit.block.answer", FT_STRING, BASE_NONE)},
        {&rule_field, OF("Rule", "nambroit.block.rule", FT_STRING, BASE_NONE)},
        {&refused_field, OF("Refused at bit", "nambroit.block.refused", FT_UINT32, BASE_DEC)},
        {&segment_field, OF("The other segment is in frame", "nambroit.block.segment", FT_FRAMENUM, BASE_NONE)},
        {&kind_fields[CSN_LITERAL], OF("Literal", "nambroit.part.literal", FT_STRING, BASE_NONE)},
        {&kind_fields[CSN_SPARE], OF("Spare", "nambroit.part.spare", FT_STRING, BASE_NONE)},
        {&kind_fields[CSN_FIELD], OF("Field", "nambroit.part.field", FT_STRING, BASE_NONE)},
        {&kind_fields[CSN_REST], OF("Rest", "nambroit.part.rest", FT_STRING, BASE_NONE)},
        {&kind_fields[CSN_PADDING], OF("Padding", "nambroit.part.padding", FT_STRING, BASE_NONE)},
    };
    static ei_register_info experts[] = {
        {&refusal_expert, {"nambroit.block.refusal", PI_MALFORMED, PI_WARN, "Refused", EXPFILL}},
        {&fault_expert, {"nambroit.block.fault", PI_UNDECODED, PI_ERROR, "Not read", EXPFILL}},
    };
    static gint *trees[] = {&nambroit_tree};
    proto_register_field_array(nambroit_protocol, block_fields, array_length(block_fields));
    proto_register_subtree_array(trees, array_length(trees));
    expert_register_field_array(expert_register_protocol(nambroit_protocol), experts, array_length(experts));
}

/* The name to filter by. Labels that differ only in case and signs share one. */
static char *name_of(const char *label)
{
    GString *name = g_string_new("nambroit");
    gboolean is_apart = TRUE;
    for (; *label != '\0'; label++) {
        if (!g_ascii_isalnum(*label)) {
            is_apart = TRUE;
            continue;
        }
        if (is_apart)
            g_string_append_c(name, strcmp(name->str, "nambroit") == 0 ? '.' : '_');
        g_string_append_c(name, g_ascii_tolower(*label));
        is_apart = FALSE;
    }
    return g_string_free(name, FALSE);
}

/* Makes a field of a label, where it has none and the name is not of another type. It takes the name. */
static void make(int *field, const char *label, char *name, enum ftenum type)
{
    guint taken = GPOINTER_TO_UINT(g_hash_table_lookup(types_by_name, name));
    if (*field != -1 || (taken != 0 && taken != (guint)type + 1)) {
        g_free(name);
        return;
    }
    g_hash_table_insert(types_by_name, g_strdup(name), GUINT_TO_POINTER((guint)type + 1));
    hf_register_info *info = g_new0(hf_register_info, 1);
    *info = (hf_register_info){field, OF(g_strdup(label), name, type, type == FT_UINT64 ? BASE_DEC : BASE_NONE)};
    proto_register_field_array(nambroit_protocol, info, 1);
    g_ptr_array_add(made, info);
}

static label_fields *fields_of(const char *label)
{
    label_fields *fields = g_hash_table_lookup(fields_by_label, label);
    if (fields == NULL) {
        fields = g_new(label_fields, 1);
        *fields = (label_fields){-1, -1, -1};
        g_hash_table_insert(fields_by_label, g_strdup(label), fields);
    }
    return fields;
}

/* The number that a label has right at it, of a leaf or of a choice; the node of its part has the next number. */
static void make_number(const rule *it, guint32 number)
{
    const rule_node *part = &it->nodes[number + 1];
    const char *label = it->nodes[number].label;
    label_fields *fields = fields_of(label);
    if (part->is_leaf || part->is_choice)
        make(&fields->number, label, name_of(label), FT_UINT64);
    if (part->is_leaf && part->bits > MOST_NUMBER) {
        char *name = name_of(label);
        make(&fields->bits, label, g_strconcat(name, ".bits", NULL), FT_STRING);
        g_free(name);
    }
}

static void make_group(const rule *it, guint32 number)
{
    const char *label = it->nodes[number].label;
    label_fields *fields = fields_of(label);
    if (fields->number != -1)
        return;
    char *name = name_of(label);
    gboolean is_number = GPOINTER_TO_UINT(g_hash_table_lookup(types_by_name, name)) == FT_UINT64 + 1;
    make(&fields->group, label, is_number ? g_strconcat(name, ".parts", NULL) : g_strdup(name), FT_NONE);
    g_free(name);
}

/* Tells a label its fields, once all are made. */
static void give_fields(const rule *it, guint32 number)
{
    it->nodes[number].fields = *fields_of(it->nodes[number].label);
}

static void for_each_label(GPtrArray *rules, void (*act)(const rule *, guint32))
{
    for (guint at = 0; at < rules->len; at++) {
        const rule *it = g_ptr_array_index(rules, at);
        for (guint32 number = 0; number < it->node_count; number++)
            if (it->nodes[number].label != NULL)
                act(it, number);
    }
}

void make_label_fields(GPtrArray *rules)
{
    forget_label_fields();
    fields_by_label = g_hash_table_new_full(g_str_hash, g_str_equal, g_free, NULL);
    types_by_name = g_hash_table_new_full(g_str_hash, g_str_equal, g_free, NULL);
    made = g_ptr_array_new();
    for_each_label(rules, make_number);
    for_each_label(rules, make_group);
    for_each_label(rules, give_fields);
}

/* Wireshark frees what is told of a field when nothing shows it any more. */
static void forget(hf_register_info *info)
{
    proto_deregister_field(nambroit_protocol, *info->p_id);
    proto_add_deregistered_data((void *)info->hfinfo.name);
    proto_add_deregistered_data((void *)info->hfinfo.abbrev);
    proto_add_deregistered_data(info);
}

void forget_label_fields(void)
{
    if (made == NULL)
        return;
    for (guint at = 0; at < made->len; at++)
        forget(g_ptr_array_index(made, at));
    g_ptr_array_free(made, TRUE);
    GHashTableIter each;
    void *fields;
    g_hash_table_iter_init(&each, fields_by_label);
    while (g_hash_table_iter_next(&each, NULL, &fields))
        proto_add_deregistered_data(fields);
    g_hash_table_destroy(fields_by_label);
    g_hash_table_destroy(types_by_name);
    made = NULL;
}
