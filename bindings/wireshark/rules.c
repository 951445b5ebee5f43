/* rules.c - see rules.h. */
#include "rules.h"
#include <string.h>

/* What csn_cli answers where it compiles no such rule (docs/ANSWERS.md). */
static char *fault_of(guint32 status, const csn_why *why)
{
    switch (status) {
    case CSN_SYNTAX:
        return g_strdup_printf("syntax %u", why->place);
    case CSN_DESCRIPTION:
        return g_strdup_printf("description %u %u", why->number, why->place);
    case CSN_CONFLICT:
        return g_strdup_printf("conflict %u %u", why->number, why->place);
    case CSN_TOO_LONG:
        return g_strdup_printf("more than %d bytes", CSN_MOST_DESCRIPTION);
    default:
        return g_strdup("no memory");
    }
}

static char *label_of(csn_rule *handle, guint32 node)
{
    size_t length = 0;
    if (csn_label(handle, node, (guint8 *)"", 0, &length) != CSN_OK)
        return NULL;
    char *label = g_malloc0(length + 1);
    csn_label(handle, node, (guint8 *)label, length, &length);
    return label;
}

static void learn_node(rule *it, guint32 number)
{
    rule_node *node = &it->nodes[number];
    csn_shape shape = {0, CSN_ANY_BITS};
    csn_node(&it->handle, number, &shape);
    node->label = label_of(&it->handle, number);
    node->fields = (label_fields){-1, -1, -1};
    node->is_leaf = shape.kind >= CSN_LITERAL && shape.kind <= CSN_PADDING;
    node->is_choice = shape.kind == CSN_CHOICE;
    node->bits = shape.bits;
}

static void compile(rule *it, const char *text, size_t length, guint32 reading)
{
    csn_why why = {0, 0};
    guint32 status = csn_compile((const guint8 *)text, length, (const guint8 *)it->name, strlen(it->name), reading,
                                 &it->handle, &why);
    if (status != CSN_OK) {
        it->fault = fault_of(status, &why);
        return;
    }
    it->node_count = csn_nodes(&it->handle);
    it->nodes = g_new0(rule_node, it->node_count);
    for (guint32 number = 0; number < it->node_count; number++)
        learn_node(it, number);
}

/* The file as it is named, or as it is named in the folder. */
static char *path_of(const char *file, const char *folder)
{
    if (g_file_test(file, G_FILE_TEST_EXISTS) || g_path_is_absolute(file))
        return g_strdup(file);
    return g_build_filename(folder, file, NULL);
}

rule *rule_new(const char *text, const char *folder, guint32 reading)
{
    const char *sign = strrchr(text, '#');
    if (sign == NULL || sign[1] == '\0')
        return NULL;
    rule *it = g_new0(rule, 1);
    char *file = g_strndup(text, (gsize)(sign - text)), *path = path_of(file, folder);
    char *description = NULL;
    gsize length = 0;
    GError *error = NULL;
    it->name = g_strdup(sign + 1);
    if (g_file_get_contents(path, &description, &length, &error)) {
        compile(it, description, length, reading);
    } else {
        it->fault = g_strdup(error->message);
        g_error_free(error);
    }
    g_free(description);
    g_free(path);
    g_free(file);
    return it;
}

void rule_free(rule *it)
{
    for (guint32 number = 0; number < it->node_count; number++)
        g_free(it->nodes[number].label);
    csn_free(&it->handle);
    g_free(it->nodes);
    g_free(it->fault);
    g_free(it->name);
    g_free(it);
}
