/* Nurbellat for C and C++: the fifteen proved operations of the archive libexports.a, as `crates/exports/src/lib.rt`
 * has them. "01" is document 01, which fixes sheets, refusals, breaches and messages, and document 02 adds rows of
 * comma-separated text, the margin list, the joining of statements and thin sheets; docs/FORMAT.md and docs/RULES.md
 * have their tables.
 *
 * A sheet is of the first kind, or of the thin kind: then the top bit of its token count is set, and the ends of its
 * names have two bytes each in place of four. Every operation reads both, also one of each in a call. What an operation
 * writes is of the first kind, but for the two that write thin sheets.
 *
 * What is lent is a pointer and a length, which counts elements and not bytes. The pointer is never null, also
 * where the length is 0, and as many elements as the length says can be read there, or read and written where it
 * is not const. What is lent for writing overlaps nothing else that is lent to the same call. Nothing else is
 * asked: any bytes and any content do, and there is nothing to test before a call. Nothing is allocated or kept,
 * and two threads may call at once. Memory comes from the caller's stack alone, of which 512 KiB suffice: on papers
 * near the limits the margin list took 275,000 bytes, a message 114,000, the check 92,000, no other more than 107,000.
 *
 * Refused, what was lent is as it came. Accepted, what was written stands first, and the rest is as it came. Both
 * are proved. */
#ifndef NURBELLAT_H
#define NURBELLAT_H

#include <stddef.h>
#include <stdint.h>

#ifdef __cplusplus
extern "C" {
#endif

/* Numbers of an item: code (3001 for E3001), start, end, owner, stage, ordinal, and the clause that the owner stands
 * in, counted from 0. */
#define NURBELLAT_ITEM 7

/* The most tokens of a sheet. There are no more items than the statement has tokens, so a list of NURBELLAT_ITEM *
 * NURBELLAT_MAX_TOKENS always suffices. */
#define NURBELLAT_MAX_TOKENS 4096

/* The longest sheet of a row, in bytes: a buffer of that length always suffices. */
#define NURBELLAT_MAX_ROW_SHEET 47151

/* The longest sheet, in bytes: a buffer of that length suffices for any that is joined. */
#define NURBELLAT_MAX_SHEET 57356

/* The longest thin sheet, in bytes: a buffer of that length suffices for any that is converted. */
#define NURBELLAT_MAX_THIN_SHEET 55308

/* An answer. Accepted, number, sheet and place are 0, and count is what the operation says. Refused, number is 1
 * to 20, sheet 1 for the statement, 2 for the schema and 0 for neither, place a name's number for 4 and 5, a
 * token's for 6 to 13, else 0, and count is 0. Where two statements are joined, sheet 1 is the first and 2 the
 * second. */
typedef struct nurbellat_reply {
  uint32_t number;
  uint32_t sheet;
  uint32_t place;
  uint32_t count;
} nurbellat_reply;

/* A digest, and the answer that goes with it. Refused, the bytes are all 0. */
typedef struct nurbellat_digested {
  nurbellat_reply reply;
  uint8_t bytes[32];
} nurbellat_digested;

/* A row of comma-separated text. Number 0: the row's bytes are those from start up to stop, its line end left off, and
 * the next row would begin at next. Number 18: no row begins there; start, stop and next are the place asked for.
 * Number 17: the text breaks RFC 4180; start is the place asked for, stop and next the first byte that can not stand
 * there, or the text's length where it ends in quotes or behind a CR. */
typedef struct nurbellat_row_at {
  uint32_t number;
  size_t start;
  size_t stop;
  size_t next;
} nurbellat_row_at;

/* Whether the bytes are a statement's sheet. Count is 0. Refusals: 1 to 9, of sheet 1. */
nurbellat_reply nurbellat_read_statement(const uint8_t *bytes, size_t bytes_length);

/* Whether the bytes are a schema's sheet. Count is 0. Refusals: 1 to 13, of sheet 2. */
nurbellat_reply nurbellat_read_schema(const uint8_t *bytes, size_t bytes_length);

/* Lists every breach of the schema in the statement, each once and in order, NURBELLAT_ITEM numbers each. Functions
 * are looked up in either case of the 26 ASCII letters, all other names by their exact bytes. Count is the number of
 * items; 0 is a clean statement. Refusals: the statement's, the schema's, then 14 exactly when there are more items
 * than fit whole. */
nurbellat_reply nurbellat_check_schema_aware(const uint8_t *statement, size_t statement_length, const uint8_t *schema,
                                             size_t schema_length, uint32_t *list, size_t list_length);

/* Lists the same items by where their spans start, those of one start in the order of the check: so calls of functions
 * and labels of a SET, whose span is 0, 0, come first. Count and refusals are those of nurbellat_check_schema_aware. */
nurbellat_reply nurbellat_margin_list(const uint8_t *statement, size_t statement_length, const uint8_t *schema,
                                      size_t schema_length, uint32_t *list, size_t list_length);

/* Writes the message of item k, counted from 0 in the check's list and not in the margin list, in UTF-8 and without a
 * 0 behind it. It has names as the statement has them, also that of a function that is declared in other case. Count
 * is its length in bytes. Refusals: the statement's, the schema's, 15 where there is no item k, then 16 exactly when
 * the message is longer than the text. */
nurbellat_reply nurbellat_message(const uint8_t *statement, size_t statement_length, const uint8_t *schema,
                                  size_t schema_length, uint32_t k, uint8_t *text, size_t text_length);

/* Lists the schema's labels by their names, in the order of the bytes, each as the number of its name in the
 * schema's sheet. Count is how many there are. Refusals: the schema's, then 16 exactly when there are more than
 * fit. So for the next two. */
nurbellat_reply nurbellat_label_names(const uint8_t *schema, size_t schema_length, uint32_t *out, size_t out_length);

/* The relationship types. */
nurbellat_reply nurbellat_rel_type_names(const uint8_t *schema, size_t schema_length, uint32_t *out,
                                         size_t out_length);

/* The parameters. */
nurbellat_reply nurbellat_parameter_names(const uint8_t *schema, size_t schema_length, uint32_t *out,
                                          size_t out_length);

/* Lists the pairs of start and end of the relationship type of that name, two name numbers each, for each start
 * every end. Count is the number of pairs; of a type that is not declared there are none. Refusals: the schema's,
 * then 16 exactly when there are more than fit. */
nurbellat_reply nurbellat_relationship_endpoints(const uint8_t *schema, size_t schema_length, const uint8_t *rel_type,
                                                 size_t rel_type_length, uint32_t *out, size_t out_length);

/* The schema's digest. Count is 32. Refusals: the schema's. */
nurbellat_digested nurbellat_schema_digest(const uint8_t *schema, size_t schema_length);

/* Writes the statement sheet of one row of comma-separated text by RFC 4180: MERGE of a node with that label, a literal
 * map from header to row, and the row's bytes, line end left off, as span. The first row is the header, and row 0 the
 * next. Count is the sheet's length in bytes. Refusals: 17 where the text breaks RFC 4180, 18 where there is no such
 * row or its cells differ in number from the header's, 5 of sheet 1 where the label (name 0) or a header (names from 1
 * on) is not UTF-8, 19 where the sheet would pass a limit or the span a uint32_t, then 16 exactly when the sheet is
 * longer than the buffer. */
nurbellat_reply nurbellat_row_statement(const uint8_t *text, size_t text_length, const uint8_t *label,
                                        size_t label_length, uint32_t row, uint8_t *out, size_t out_length);

/* The row of comma-separated text that begins at a place, the header's being 0. What stands before it and behind its
 * line end is not looked at. */
nurbellat_row_at nurbellat_next_row(const uint8_t *text, size_t text_length, size_t at);

/* Writes the sheet of two statements joined to one paper: the clauses of the first, then those of the second, spans
 * unchanged, the second's names numbered after the first's. Three are joined by joining twice. Count is the sheet's
 * length in bytes. The paper's list is the first's, then the second's with owners moved on by the first sheet's tokens
 * less one and clauses by its clauses; every message is the same. Refusals: 1 to 9 of the first, of sheet 1, then of
 * the second, of sheet 2, then 20 where the joined sheet would pass a size limit (4,096 tokens, 1,024 names, 32,768
 * bytes of text), then 16 exactly when the sheet is longer than the buffer. */
nurbellat_reply nurbellat_join_statements(const uint8_t *first, size_t first_length, const uint8_t *second,
                                          size_t second_length, uint8_t *out, size_t out_length);

/* Writes a statement's sheet in the thin kind: the same tokens and names, so that it draws the same answers everywhere.
 * One that is thin already is copied byte for byte. Count is the thin sheet's length in bytes, which is never more than
 * the sheet has. Refusals: 1 to 9 of sheet 1, then 16 exactly when the thin sheet is longer than the buffer. */
nurbellat_reply nurbellat_thin_statement(const uint8_t *bytes, size_t bytes_length, uint8_t *out, size_t out_length);

/* The same of a schema's sheet. Refusals: 1 to 13 of sheet 2, then 16. */
nurbellat_reply nurbellat_thin_schema(const uint8_t *bytes, size_t bytes_length, uint8_t *out, size_t out_length);

#ifdef __cplusplus
}
#endif

#endif
