/* fields.h - what can be filtered by: the labels of the rules, and what each block has. */
#ifndef NAMBROIT_FIELDS_H
#define NAMBROIT_FIELDS_H
#include "rules.h"
#include <epan/packet.h>
#include <epan/expert.h>

/* Fields of each block. */
extern int nambroit_protocol, answer_field, rule_field, refused_field, segment_field;
/* Fields of leaves that are not right at a label, by their kind. Their value is their bits. */
extern int kind_fields[CSN_PADDING + 1];
extern const char *const kind_titles[CSN_PADDING + 1];
extern gint nambroit_tree;
extern expert_field refusal_expert, fault_expert;

/* Registers all but the labels. */
void register_fields(void);

/* Makes fields of the labels of some rules, in place of those that there are. */
void make_label_fields(GPtrArray *rules);
void forget_label_fields(void);
#endif
