/* plugin.c - Nambroit for Wireshark: what tools/wireshark/nambroit.lua does, by the library in place of another program.
 * README.md says how it is built, and which preferences it has. */
#include "blocks.h"
#include "fields.h"
#include "shown.h"
#include <epan/prefs.h>
#include <stdlib.h>
#include <string.h>
#include <ws_version.h>

/* Where a description is looked for that is not where it is named. */
#ifndef DESCRIPTIONS
#define DESCRIPTIONS "descriptions"
#endif

WS_DLL_PUBLIC_DEF const gchar plugin_version[] = "1";
WS_DLL_PUBLIC_DEF const int plugin_want_major = WIRESHARK_VERSION_MAJOR;
WS_DLL_PUBLIC_DEF const int plugin_want_minor = WIRESHARK_VERSION_MINOR;
WS_DLL_PUBLIC void plugin_register(void);

/* The preferences, each a text. */
static struct {
    const char *folder, *reading, *uplink, *downlink, *rest_octets[MESSAGE_COUNT], *other, *other_field, *other_skip;
} settings;

static dissector_handle_t handle;
static int gsmtap_protocol = -1, payload_field = -1, other_field = -1;
static GPtrArray *all_rules; /* those of the settings, or NULL before they are needed */
static block_rules rules;
static rule *other_rule;

/* ---- settings */

/* Registers a preference. Its default is a variable such as NAMBROIT_UPLINK, where there is one. */
static void prefer(module_t *module, const char **setting, const char *name, const char *title, const char *preset)
{
    char *upper = g_ascii_strup(name, -1), *variable = g_strconcat("NAMBROIT_", upper, NULL);
    const char *set = getenv(variable);
    *setting = set != NULL ? set : preset;
    char *about = g_strconcat("Its default is the variable ", variable, NULL);
    prefs_register_string_preference(module, name, title, wmem_strdup(wmem_epan_scope(), about), setting);
    g_free(about);
    g_free(variable);
    g_free(upper);
}

static void prefer_rest_octets(module_t *module, int at)
{
    const char *title = wmem_strdup_printf(wmem_epan_scope(), "FILE#RULE of %s", messages[at].rule_name);
    const char *preset = wmem_strdup_printf(wmem_epan_scope(), "44.018.csn1#%s", messages[at].rule_name);
    prefer(module, &settings.rest_octets[at], messages[at].preference, title, preset);
}

static void forget_rules(void);

static void register_preferences(void)
{
    module_t *module = prefs_register_protocol(nambroit_protocol, forget_rules);
    prefer(module, &settings.folder, "folder", "Folder of descriptions", DESCRIPTIONS);
    prefer(module, &settings.reading, "reading", "Reading, received or sent", "received");
    prefer(module, &settings.uplink, "uplink", "FILE#RULE of uplink control blocks",
           "44.060.csn1#Uplink RLC/MAC control message");
    prefer(module, &settings.downlink, "downlink", "FILE#RULE of downlink control blocks",
           "44.060.csn1#Downlink RLC/MAC control message");
    for (int at = 0; at < MESSAGE_COUNT; at++)
        prefer_rest_octets(module, at);
    prefer(module, &settings.other, "other", "FILE#RULE of other blocks", "");
    prefer(module, &settings.other_field, "other_field", "Field of Wireshark's whose octets are such a block", "");
    prefer(module, &settings.other_skip, "other_skip", "Octets that come before it there", "0");
}

/* ---- rules */

static rule *make_rule(const char *text)
{
    gboolean is_sent = strcmp(settings.reading, "sent") == 0;
    rule *it = rule_new(text, settings.folder, is_sent ? CSN_SENT : CSN_RECEIVED);
    if (it == NULL)
        return NULL;
    if (!is_sent && it->fault == NULL && strcmp(settings.reading, "received") != 0)
        it->fault = g_strdup_printf("there is no reading %s", settings.reading);
    g_ptr_array_add(all_rules, it);
    return it;
}

/* Compiles the rules of the settings, and makes fields of their labels, where that is not done. */
static void make_rules(void)
{
    if (all_rules != NULL)
        return;
    all_rules = g_ptr_array_new();
    rules.uplink = make_rule(settings.uplink);
    rules.downlink = make_rule(settings.downlink);
    for (int at = 0; at < MESSAGE_COUNT; at++)
        rules.rest_octets[at] = make_rule(settings.rest_octets[at]);
    other_rule = make_rule(settings.other);
    make_label_fields(all_rules);
}

/* Wireshark asks for this where a filter names a label before any block was shown. */
static void make_rules_for(const char *name)
{
    (void)name;
    make_rules();
}

/* What the plugin wants of each frame, as the settings tell. */
static void want_fields(void)
{
    GArray *wanted = g_array_new(FALSE, FALSE, sizeof(int));
    other_field = proto_registrar_get_id_byname(settings.other_field);
    g_array_append_val(wanted, gsmtap_protocol);
    g_array_append_val(wanted, payload_field);
    if (other_field != -1)
        g_array_append_val(wanted, other_field);
    set_postdissector_wanted_hfids(handle, wanted);
}

/* The settings were changed: the rules are made again, at once where fields of labels may be in use. */
static void forget_rules(void)
{
    want_fields();
    if (all_rules == NULL)
        return;
    forget_label_fields();
    for (guint at = 0; at < all_rules->len; at++)
        rule_free(g_ptr_array_index(all_rules, at));
    g_ptr_array_free(all_rules, TRUE);
    all_rules = NULL;
    make_rules();
}

/* ---- frames */

/* The items of a field in a frame. A packet that is selected in Wireshark has its tree, but was not asked for fields. */
static GPtrArray *items_of(proto_tree *tree, int field, gboolean *is_ours)
{
    GPtrArray *items = proto_get_finfo_ptr_array(tree, field);
    *is_ours = items == NULL && PTREE_DATA(tree)->visible;
    return *is_ours ? proto_find_finfo(tree, field) : items;
}

/* The octets of an item, without some at its beginning; of no length where there are none more. */
static span span_of(const field_info *item, int skipped)
{
    gboolean has_more = item->ds_tvb != NULL && item->start >= 0 && skipped < item->length;
    return (span){item->ds_tvb, item->start + skipped, has_more ? item->length - skipped : 0};
}

static gboolean begins_at(const GPtrArray *items, const field_info *other)
{
    for (guint at = 0; items != NULL && at < items->len; at++) {
        const field_info *item = g_ptr_array_index(items, at);
        if (item->ds_tvb == other->ds_tvb && item->start == other->start)
            return TRUE;
    }
    return FALSE;
}

/* Shows the datagrams that GSMTAP headers begin. */
static void show_datagrams(packet_info *pinfo, proto_tree *tree)
{
    gboolean headers_are_ours = FALSE, payloads_are_ours = FALSE;
    GPtrArray *headers = items_of(tree, gsmtap_protocol, &headers_are_ours);
    GPtrArray *payloads = headers != NULL ? items_of(tree, payload_field, &payloads_are_ours) : NULL;
    for (guint at = 0; payloads != NULL && at < payloads->len; at++) {
        const field_info *payload = g_ptr_array_index(payloads, at);
        span datagram = span_of(payload, 0);
        if (datagram.length > 0 && begins_at(headers, payload))
            show_datagram(&rules, datagram, pinfo, at, tree);
    }
    if (headers_are_ours)
        g_ptr_array_free(headers, TRUE);
    if (payloads_are_ours)
        g_ptr_array_free(payloads, TRUE);
}

static void show_others(packet_info *pinfo, proto_tree *tree)
{
    gboolean is_ours = FALSE;
    GPtrArray *items = items_of(tree, other_field, &is_ours);
    for (guint at = 0; items != NULL && at < items->len; at++) {
        span block = span_of(g_ptr_array_index(items, at), atoi(settings.other_skip));
        if (block.length > 0)
            show_block(other_rule, block, pinfo, tree);
    }
    if (is_ours)
        g_ptr_array_free(items, TRUE);
}

static int dissect(tvbuff_t *tvb, packet_info *pinfo, proto_tree *tree, void *data)
{
    (void)data;
    if (tree == NULL)
        return 0;
    make_rules();
    show_datagrams(pinfo, tree);
    if (other_rule != NULL && other_field != -1)
        show_others(pinfo, tree);
    return (int)tvb_captured_length(tvb);
}

/* ---- registration */

static void register_protocol(void)
{
    nambroit_protocol = proto_register_protocol("Nambroit", "Nambroit", "nambroit");
    register_fields();
    register_preferences();
    register_segments();
    proto_register_prefix("nambroit", make_rules_for);
    handle = create_dissector_handle(dissect, nambroit_protocol);
    register_postdissector(handle);
    register_shutdown_routine(forget_events);
}

static void register_handoff(void)
{
    gsmtap_protocol = proto_get_id_by_filter_name("gsmtap");
    payload_field = proto_registrar_get_id_byname("udp.payload");
    want_fields();
}

void plugin_register(void)
{
    static proto_plugin plugin = {register_protocol, register_handoff};
    proto_register_plugin(&plugin);
}
