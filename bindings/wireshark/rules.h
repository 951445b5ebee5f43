/* rules.h - the rules by which blocks are read: a description, the name of a rule in it, and a reading. */
#ifndef NAMBROIT_RULES_H
#define NAMBROIT_RULES_H
#include "csn.h"
#include <glib.h>

/* The fields of a label, by whichever rules; -1 where there is none. */
typedef struct {
    int number; /* of a leaf, or the alternative of a choice */
    int bits;   /* of a leaf that may have more bits than a number */
    int group;  /* of any other part */
} label_fields;

/* A node of a rule, as far as it is shown. */
typedef struct {
    char *label;         /* or NULL */
    label_fields fields; /* those of its label, once they are made */
    gboolean is_leaf;
    gboolean is_choice;
    guint32 bits;        /* as in csn_shape */
} rule_node;

typedef struct {
    char *name;       /* of the rule in its description */
    char *fault;      /* why it cannot be used, or NULL */
    csn_rule handle;
    rule_node *nodes;
    guint32 node_count;
} rule;

/* The rule of a text FILE#RULE, or NULL where it is none. A file that is not as it is named is looked for in a folder. */
rule *rule_new(const char *text, const char *folder, guint32 reading);
void rule_free(rule *it);
#endif
