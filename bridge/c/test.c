/* Calls each of the fifteen operations from C: document 01's worked example, refusals, lent memory that must be kept,
 * names, endpoints, digests, rows, joined statements and thin sheets. It is C++ as well, so that the header is tried
 * with both. */
#include "../nurbellat.h"

#include <stdio.h>
#include <string.h>

/* Both sides lay a reply out alike: four numbers, and 32 bytes behind them. */
typedef char a_reply_has_16_bytes[sizeof(nurbellat_reply) == 16 ? 1 : -1];
typedef char a_digested_has_48_bytes[sizeof(nurbellat_digested) == 48 ? 1 : -1];
typedef char a_row_has_a_number_and_three_places[sizeof(nurbellat_row_at) == 4 * sizeof(size_t) ? 1 : -1];

#define ROOM 512
#define COUNT(array) (sizeof(array) / sizeof((array)[0]))

static int tried;
static int failed;

static void expect_at(int line, int holds, const char *what) {
  tried++;
  if (!holds) {
    failed++;
    printf("test.c:%d: %s\n", line, what);
  }
}

#define EXPECT(fact) expect_at(__LINE__, (fact), #fact)

/* ---- sheets */

typedef struct token {
  uint8_t kind;
  uint32_t value;
} token;

typedef struct sheet {
  uint8_t bytes[ROOM];
  size_t length;
} sheet;

static void put(sheet *s, uint32_t byte) {
  s->bytes[s->length++] = (uint8_t)byte;
}

static void put_number(sheet *s, uint32_t number) {
  int i;
  for (i = 0; i < 4; i++) {
    put(s, (number >> (8 * i)) & 255);
  }
}

static size_t text_of(const char *const *names, size_t name_count) {
  size_t k, sum = 0;
  for (k = 0; k < name_count; k++) {
    sum += strlen(names[k]);
  }
  return sum;
}

/* The three sizes, the kinds, the values, where each name ends, the text. */
static sheet made(const token *tokens, size_t token_count, const char *const *names, size_t name_count) {
  sheet s;
  size_t i;
  s.length = 0;
  put_number(&s, (uint32_t)token_count);
  put_number(&s, (uint32_t)name_count);
  put_number(&s, (uint32_t)text_of(names, name_count));
  for (i = 0; i < token_count; i++) {
    put(&s, tokens[i].kind);
  }
  for (i = 0; i < token_count; i++) {
    put_number(&s, tokens[i].value);
  }
  for (i = 0; i < name_count; i++) {
    put_number(&s, (uint32_t)text_of(names, i + 1));
  }
  for (i = 0; i < name_count; i++) {
    memcpy(s.bytes + s.length, names[i], strlen(names[i]));
    s.length += strlen(names[i]);
  }
  return s;
}

/* The same document in the thin kind, of a short sheet: the token count marked, two bytes for each end. */
static sheet thin_of(const sheet *s) {
  const size_t names = s->bytes[4], ends = 12 + 5 * (size_t)s->bytes[0];
  sheet thin;
  size_t i;
  thin.length = 0;
  for (i = 0; i < ends; i++) {
    put(&thin, s->bytes[i]);
  }
  thin.bytes[3] = 128;
  for (i = 0; i < 2 * names; i++) {
    put(&thin, s->bytes[ends + 4 * (i / 2) + i % 2]);
  }
  for (i = ends + 4 * names; i < s->length; i++) {
    put(&thin, s->bytes[i]);
  }
  return thin;
}

/* MERGE (:Phase {stage: 1, green: "7"}), whose element stands from 6 to 37. */
static sheet statement(void) {
  static const token tokens[] = {{90, 1}, {72, 0}, {60, 1}, {61, 1}, {62, 3}, {51, 6}, {51, 37},
                                 {50, 0}, {14, 2}, {50, 1}, {3, 0},  {50, 2}, {5, 0}};
  static const char *const names[] = {"Phase", "stage", "green"};
  return made(tokens, COUNT(tokens), names, COUNT(names));
}

/* MATCH (:B), (:A) RETURN f(), whose elements stand from 12 to 16 and from 6 to 10. */
static sheet two_clauses(void) {
  static const token tokens[] = {{90, 2},  {70, 0}, {60, 1}, {61, 2},  {62, 2}, {51, 12}, {51, 16}, {50, 0},
                                 {62, 2}, {51, 6}, {51, 10}, {50, 1}, {75, 1}, {16, 0},  {50, 2}};
  static const char *const names[] = {"B", "A", "f"};
  return made(tokens, COUNT(tokens), names, COUNT(names));
}

/* The label Phase with stage and green, both Int, unique by (site, stage). */
static sheet schema(void) {
  static const token tokens[] = {{100, 1}, {101, 3}, {50, 0}, {110, 0}, {50, 1}, {121, 0},
                                 {110, 0}, {50, 2},  {121, 0}, {111, 2}, {50, 3}, {50, 1}};
  static const char *const names[] = {"Phase", "stage", "green", "site"};
  return made(tokens, COUNT(tokens), names, COUNT(names));
}

/* Labels b and a, relationship types NEXT (from b and a to b) and AT, parameters y and x. */
static sheet store(void) {
  static const token tokens[] = {{100, 6}, {101, 0}, {50, 0}, {101, 0}, {50, 1}, {102, 3}, {50, 2},
                                 {112, 0}, {50, 0},  {113, 0}, {50, 0}, {112, 0}, {50, 1}, {102, 0},
                                 {50, 3},  {103, 0}, {50, 4}, {120, 0}, {103, 0}, {50, 5}, {120, 0}};
  static const char *const names[] = {"b", "a", "NEXT", "AT", "y", "x"};
  return made(tokens, COUNT(tokens), names, COUNT(names));
}

static sheet empty_schema(void) {
  static const token tokens[] = {{100, 0}};
  return made(tokens, COUNT(tokens), NULL, 0);
}

static sheet label_again(void) {
  static const token tokens[] = {{100, 2}, {101, 0}, {50, 0}, {101, 0}, {50, 1}};
  static const char *const names[] = {"a", "a"};
  return made(tokens, COUNT(tokens), names, COUNT(names));
}

/* ---- answers */

static int accepted(nurbellat_reply r, uint32_t count) {
  return r.number == 0 && r.sheet == 0 && r.place == 0 && r.count == count;
}

static int refused(nurbellat_reply r, uint32_t number, uint32_t of_sheet, uint32_t place) {
  return r.number == number && r.sheet == of_sheet && r.place == place && r.count == 0;
}

/* What is lent holds this before a call. */
#define BEFORE 77

static void fill(uint32_t *list, size_t n) {
  size_t i;
  for (i = 0; i < n; i++) {
    list[i] = BEFORE;
  }
}

static int kept(const uint32_t *list, size_t from, size_t n) {
  size_t i;
  for (i = from; i < n; i++) {
    if (list[i] != BEFORE) {
      return 0;
    }
  }
  return 1;
}

static int kept_bytes(const uint8_t *text, size_t from, size_t n) {
  size_t i;
  for (i = from; i < n; i++) {
    if (text[i] != BEFORE) {
      return 0;
    }
  }
  return 1;
}

/* ---- the operations */

static void reading(void) {
  const sheet right = statement(), declared = schema(), again = label_again();
  EXPECT(right.length == 104 && declared.length == 107);
  EXPECT(accepted(nurbellat_read_statement(right.bytes, right.length), 0));
  EXPECT(accepted(nurbellat_read_schema(declared.bytes, declared.length), 0));
  EXPECT(refused(nurbellat_read_statement(right.bytes, 0), 1, 1, 0));
  EXPECT(refused(nurbellat_read_statement(right.bytes, 11), 1, 1, 0));
  EXPECT(refused(nurbellat_read_statement(right.bytes, right.length - 1), 3, 1, 0));
  EXPECT(refused(nurbellat_read_statement(declared.bytes, declared.length), 6, 1, 0));
  EXPECT(refused(nurbellat_read_schema(right.bytes, right.length), 6, 2, 0));
  EXPECT(refused(nurbellat_read_schema(again.bytes, again.length), 10, 2, 3));
}

typedef nurbellat_reply items_of(const uint8_t *, size_t, const uint8_t *, size_t, uint32_t *, size_t);

/* So many items of a pair, with exactly the places they take, with one more and with one less; refused, the list is as
 * it came. */
static void listed(items_of *ask, const sheet *s, const sheet *d, const uint32_t *items, size_t count) {
  const size_t numbers = NURBELLAT_ITEM * count;
  const sheet again = label_again();
  uint32_t list[ROOM];
  size_t places;
  for (places = numbers; places <= numbers + 1; places++) {
    fill(list, ROOM);
    EXPECT(accepted(ask(s->bytes, s->length, d->bytes, d->length, list, places), (uint32_t)count));
    EXPECT(memcmp(list, items, numbers * sizeof items[0]) == 0 && kept(list, numbers, ROOM));
  }
  fill(list, ROOM);
  EXPECT(refused(ask(s->bytes, s->length, d->bytes, d->length, list, numbers - 1), 14, 0, 0));
  EXPECT(refused(ask(s->bytes, 11, d->bytes, 11, list, ROOM), 1, 1, 0));
  EXPECT(refused(ask(s->bytes, s->length, again.bytes, again.length, list, ROOM), 10, 2, 3));
  EXPECT(kept(list, 0, ROOM));
}

static void checking(void) {
  static const uint32_t items[] = {3004, 6, 37, 4, 2, 1, 0, 3009, 6, 37, 4, 3, 0, 0};
  const sheet s = statement(), d = schema();
  EXPECT(COUNT(items) == 2 * NURBELLAT_ITEM);
  listed(nurbellat_check_schema_aware, &s, &d, items, 2);
  listed(nurbellat_margin_list, &s, &d, items, 2);
}

/* The same items in both orders: as the statement's tokens stand, and by start. */
static void margins(void) {
  static const uint32_t items[] = {3001, 12, 16, 4, 0, 0, 0, 3001, 6, 10, 8, 0, 0, 0, 3006, 0, 0, 13, 0, 0, 1};
  static const uint32_t margin[] = {3006, 0, 0, 13, 0, 0, 1, 3001, 6, 10, 8, 0, 0, 0, 3001, 12, 16, 4, 0, 0, 0};
  const sheet s = two_clauses(), d = empty_schema();
  listed(nurbellat_check_schema_aware, &s, &d, items, 3);
  listed(nurbellat_margin_list, &s, &d, margin, 3);
}

static void one_message(uint32_t k, const char *expected) {
  const sheet s = statement(), d = schema();
  const size_t n = strlen(expected);
  uint8_t text[ROOM];
  memset(text, BEFORE, ROOM);
  EXPECT(refused(nurbellat_message(s.bytes, s.length, d.bytes, d.length, k, text, n - 1), 16, 0, 0));
  EXPECT(kept_bytes(text, 0, ROOM));
  EXPECT(accepted(nurbellat_message(s.bytes, s.length, d.bytes, d.length, k, text, n), (uint32_t)n));
  EXPECT(memcmp(text, expected, n) == 0 && kept_bytes(text, n, ROOM));
}

static void messages(void) {
  const sheet s = statement(), d = schema();
  uint8_t text[ROOM];
  memset(text, BEFORE, ROOM);
  one_message(0, "property `green` expects type `Int` but got `String`");
  one_message(1, "MERGE key {green, stage} on label(s) :Phase is not backed by a declared uniqueness constraint");
  EXPECT(refused(nurbellat_message(s.bytes, s.length, d.bytes, d.length, 2, text, ROOM), 15, 0, 0));
  EXPECT(refused(nurbellat_message(s.bytes, s.length, d.bytes, 0, 0, text, ROOM), 1, 2, 0));
  EXPECT(kept_bytes(text, 0, ROOM));
}

typedef nurbellat_reply names_of(const uint8_t *, size_t, uint32_t *, size_t);

/* Two names in order: one number short nothing is written, with two places both are. */
static void two_names(names_of *ask, uint32_t first, uint32_t second) {
  const sheet d = store();
  uint32_t out[3];
  fill(out, COUNT(out));
  EXPECT(refused(ask(d.bytes, d.length, out, 1), 16, 0, 0));
  EXPECT(refused(ask(d.bytes, 11, out, COUNT(out)), 1, 2, 0));
  EXPECT(kept(out, 0, COUNT(out)));
  EXPECT(accepted(ask(d.bytes, d.length, out, 2), 2));
  EXPECT(out[0] == first && out[1] == second && kept(out, 2, COUNT(out)));
}

static void names(void) {
  two_names(nurbellat_label_names, 1, 0);
  two_names(nurbellat_rel_type_names, 3, 2);
  two_names(nurbellat_parameter_names, 5, 4);
}

static nurbellat_reply endpoints_of(const char *rel_type, uint32_t *out, size_t out_length) {
  const sheet d = store();
  const uint8_t *text = (const uint8_t *)rel_type;
  return nurbellat_relationship_endpoints(d.bytes, d.length, text, strlen(rel_type), out, out_length);
}

static void endpoints(void) {
  static const uint32_t pairs[] = {0, 0, 1, 0};
  uint32_t out[5];
  fill(out, COUNT(out));
  EXPECT(refused(endpoints_of("NEXT", out, 3), 16, 0, 0));
  EXPECT(accepted(endpoints_of("AT", out, 0), 0));
  EXPECT(accepted(endpoints_of("a", out, COUNT(out)), 0));
  EXPECT(kept(out, 0, COUNT(out)));
  EXPECT(accepted(endpoints_of("NEXT", out, COUNT(out)), 2));
  EXPECT(memcmp(out, pairs, sizeof pairs) == 0 && kept(out, COUNT(pairs), COUNT(out)));
}

/* The digest of no declaration, which is that of FNV-1a's start, turned left by seven bits more for each byte. */
static void digests(void) {
  static const uint8_t zeros[32] = {0};
  const sheet d = empty_schema();
  const uint64_t start = ((uint64_t)0xcbf29ce4u << 32) | 0x84222325u;
  const nurbellat_digested right = nurbellat_schema_digest(d.bytes, d.length);
  const nurbellat_digested cut = nurbellat_schema_digest(d.bytes, 11);
  int i;
  EXPECT(accepted(right.reply, 32));
  for (i = 0; i < 32; i++) {
    const int turn = 7 * i % 64;
    const uint64_t turned = turn == 0 ? start : (start << turn) | (start >> (64 - turn));
    EXPECT(right.bytes[i] == (turned & 255));
  }
  EXPECT(refused(cut.reply, 1, 2, 0));
  EXPECT(memcmp(cut.bytes, zeros, sizeof zeros) == 0);
}

static nurbellat_reply row_of(const char *text, uint32_t row, uint8_t *out, size_t out_length) {
  static const uint8_t label[] = {'P', 'h', 'a', 's', 'e'};
  return nurbellat_row_statement((const uint8_t *)text, strlen(text), label, sizeof label, row, out, out_length);
}

/* The worked example as a row: its sheet, but for the span, is the example's. */
static void row_sheets(void) {
  static const char text[] = "stage,green\r\n\r\n1,\"7\"\r\n";
  const sheet s = statement();
  sheet expected = s;
  uint8_t out[ROOM];
  expected.bytes[12 + 13 + 4 * 5] = 15;
  expected.bytes[12 + 13 + 4 * 6] = 20;
  memset(out, BEFORE, ROOM);
  EXPECT(refused(row_of(text, 1, out, s.length - 1), 16, 0, 0));
  EXPECT(refused(row_of(text, 0, out, ROOM), 18, 0, 0));
  EXPECT(refused(row_of(text, 2, out, ROOM), 18, 0, 0));
  EXPECT(refused(row_of("", 0, out, ROOM), 18, 0, 0));
  EXPECT(refused(row_of("a\r\n1\n", 0, out, ROOM), 17, 0, 0));
  EXPECT(refused(row_of("\377\r\n1", 0, out, ROOM), 5, 1, 1));
  EXPECT(kept_bytes(out, 0, ROOM));
  EXPECT(accepted(row_of(text, 1, out, s.length), (uint32_t)s.length));
  EXPECT(memcmp(out, expected.bytes, s.length) == 0 && kept_bytes(out, s.length, ROOM));
}

/* The widest header and the longest names have the longest sheet; one byte more of a name is past the limit. */
static void longest_row_sheet(void) {
  enum { COLUMNS = 1023, NAMES = 32768 - 5 };
  static char text[2 * (COLUMNS + 1) + NAMES + 2];
  static uint8_t out[NURBELLAT_MAX_ROW_SHEET];
  char *const names = text + COLUMNS - 1;
  memset(text, ',', COLUMNS - 1);
  memset(names, 'n', NAMES);
  memcpy(names + NAMES, "\r\n", 2);
  memset(names + NAMES + 2, ',', COLUMNS - 1);
  EXPECT(accepted(row_of(text, 0, out, sizeof out), NURBELLAT_MAX_ROW_SHEET));
  EXPECT(refused(row_of(text, 0, out, sizeof out - 1), 16, 0, 0));
  memmove(text + 1, text, sizeof text - 2);
  text[0] = 'n';
  EXPECT(refused(row_of(text, 0, out, sizeof out), 19, 0, 0));
}

static int is_row(nurbellat_row_at r, uint32_t number, size_t start, size_t stop, size_t next) {
  return r.number == number && r.start == start && r.stop == stop && r.next == next;
}

static void rows(void) {
  const uint8_t *text = (const uint8_t *)"a\r\n\r\n\"\r\n\"\r\n1\"";
  EXPECT(is_row(nurbellat_next_row(text, 13, 0), 0, 0, 1, 3));
  EXPECT(is_row(nurbellat_next_row(text, 13, 3), 0, 3, 3, 5));
  EXPECT(is_row(nurbellat_next_row(text, 13, 5), 0, 5, 9, 11));
  EXPECT(is_row(nurbellat_next_row(text, 13, 11), 17, 11, 12, 12));
  EXPECT(is_row(nurbellat_next_row(text, 12, 11), 0, 11, 12, 12));
  EXPECT(is_row(nurbellat_next_row(text, 10, 5), 17, 5, 10, 10));
  EXPECT(is_row(nurbellat_next_row(text, 7, 5), 17, 5, 7, 7));
  EXPECT(is_row(nurbellat_next_row(text, 13, 13), 18, 13, 13, 13));
  EXPECT(is_row(nurbellat_next_row(text, 0, 0), 18, 0, 0, 0));
  EXPECT(is_row(nurbellat_next_row(text, 13, 99), 18, 99, 99, 99));
}

static nurbellat_reply join_of(const sheet *first, const sheet *second, uint8_t *out, size_t out_length) {
  return nurbellat_join_statements(first->bytes, first->length, second->bytes, second->length, out, out_length);
}

/* The worked example, then MATCH (:B), (:A) RETURN f(). */
static sheet both_statements(void) {
  static const token tokens[] = {{90, 3},  {72, 0},  {60, 1}, {61, 1}, {62, 3},  {51, 6},  {51, 37}, {50, 0}, {14, 2},
                                 {50, 1},  {3, 0},   {50, 2}, {5, 0},  {70, 0},  {60, 1},  {61, 2},  {62, 2}, {51, 12},
                                 {51, 16}, {50, 3},  {62, 2}, {51, 6}, {51, 10}, {50, 4},  {75, 1},  {16, 0}, {50, 5}};
  static const char *const names[] = {"Phase", "stage", "green", "B", "A", "f"};
  return made(tokens, COUNT(tokens), names, COUNT(names));
}

static void joined(void) {
  const sheet first = statement(), second = two_clauses(), both = both_statements(), d = schema();
  sheet cut = second;
  uint8_t out[ROOM];
  cut.length--;
  EXPECT(both.length == first.length + second.length - 17);
  memset(out, BEFORE, ROOM);
  EXPECT(refused(join_of(&first, &second, out, both.length - 1), 16, 0, 0));
  EXPECT(refused(join_of(&first, &second, out, 0), 16, 0, 0));
  EXPECT(refused(join_of(&first, &cut, out, ROOM), 3, 2, 0));
  EXPECT(refused(join_of(&cut, &first, out, ROOM), 3, 1, 0));
  EXPECT(refused(join_of(&cut, &cut, out, ROOM), 3, 1, 0));
  EXPECT(refused(join_of(&first, &d, out, ROOM), 6, 2, 0));
  EXPECT(refused(join_of(&d, &first, out, ROOM), 6, 1, 0));
  EXPECT(kept_bytes(out, 0, ROOM));
  EXPECT(accepted(join_of(&first, &second, out, both.length), (uint32_t)both.length));
  EXPECT(memcmp(out, both.bytes, both.length) == 0 && kept_bytes(out, both.length, ROOM));
  memset(out, BEFORE, ROOM);
  EXPECT(accepted(join_of(&first, &second, out, ROOM), (uint32_t)both.length));
  EXPECT(memcmp(out, both.bytes, both.length) == 0 && kept_bytes(out, both.length, ROOM));
}

/* The lists of both statements, one after another: owners 12 further on, clauses one. */
static void joined_list(void) {
  static const uint32_t items[] = {3004, 6,  37, 4, 2, 1, 0, 3009, 6,  37, 4, 3, 0, 0, 3001, 12, 16, 16, 0, 0, 1,
                                   3001, 6,  10, 20, 0, 0, 1, 3006, 0, 0, 25, 0, 0, 2};
  const sheet s = both_statements(), d = schema();
  EXPECT(COUNT(items) == 5 * NURBELLAT_ITEM);
  listed(nurbellat_check_schema_aware, &s, &d, items, 5);
}

/* A sheet of so many tokens, RETURN of nulls, and so many names, the first of so many bytes and the others empty. */
static size_t sized(uint8_t *bytes, uint32_t tokens, uint32_t names, uint32_t text) {
  const uint32_t sizes[3] = {tokens, names, text};
  size_t at = 0;
  uint32_t i;
  for (i = 0; i < 12; i++) {
    bytes[at++] = (uint8_t)(sizes[i / 4] >> (8 * (i % 4)));
  }
  memset(bytes + at, 0, NURBELLAT_MAX_SHEET - at);
  memset(bytes + at, 1, tokens);
  bytes[at] = 90;
  bytes[at + 1] = 75;
  at += tokens;
  bytes[at] = 1;
  bytes[at + 4] = (uint8_t)(tokens - 2);
  bytes[at + 5] = (uint8_t)((tokens - 2) >> 8);
  at += 4 * (size_t)tokens;
  for (i = 0; i < names; i++) {
    bytes[at++] = (uint8_t)text;
    bytes[at++] = (uint8_t)(text >> 8);
    at += 2;
  }
  memset(bytes + at, 'n', text);
  return at + text;
}

/* Two sheets that join to the longest, and with one token, name or byte more to none. */
static void longest_joined_sheet(void) {
  static const uint32_t more[3][3] = {{1, 0, 0}, {0, 1, 0}, {0, 0, 1}};
  static uint8_t first[NURBELLAT_MAX_SHEET], second[NURBELLAT_MAX_SHEET], out[NURBELLAT_MAX_SHEET];
  const size_t m = sized(first, 96, 24, 768);
  size_t n = sized(second, 4001, 1000, 32000), i;
  EXPECT(refused(nurbellat_join_statements(first, m, second, n, out, sizeof out - 1), 16, 0, 0));
  EXPECT(accepted(nurbellat_join_statements(first, m, second, n, out, sizeof out), NURBELLAT_MAX_SHEET));
  EXPECT(accepted(nurbellat_read_statement(out, sizeof out), 0));
  for (i = 0; i < COUNT(more); i++) {
    n = sized(second, 4001 + more[i][0], 1000 + more[i][1], 32000 + more[i][2]);
    memset(out, BEFORE, sizeof out);
    EXPECT(refused(nurbellat_join_statements(first, m, second, n, out, sizeof out), 20, 0, 0));
    EXPECT(refused(nurbellat_join_statements(first, m, second, n - 1, out, sizeof out), 3, 2, 0));
    EXPECT(kept_bytes(out, 0, sizeof out));
  }
}

typedef nurbellat_reply converts(const uint8_t *, size_t, uint8_t *, size_t);

/* A sheet converted with exactly the bytes that the thin one takes, with more and with one less, and the thin one
 * copied; refused, the buffer is as it came. */
static void converted(converts *ask, const sheet *s, uint32_t of_sheet) {
  const sheet thin = thin_of(s);
  const sheet from[2] = {*s, thin};
  uint8_t out[ROOM];
  size_t i;
  for (i = 0; i < COUNT(from); i++) {
    memset(out, BEFORE, ROOM);
    EXPECT(refused(ask(from[i].bytes, from[i].length, out, thin.length - 1), 16, 0, 0));
    EXPECT(refused(ask(from[i].bytes, from[i].length, out, 0), 16, 0, 0));
    EXPECT(refused(ask(from[i].bytes, 11, out, ROOM), 1, of_sheet, 0));
    EXPECT(refused(ask(from[i].bytes, from[i].length - 1, out, 0), 3, of_sheet, 0));
    EXPECT(kept_bytes(out, 0, ROOM));
    EXPECT(accepted(ask(from[i].bytes, from[i].length, out, thin.length), (uint32_t)thin.length));
    EXPECT(memcmp(out, thin.bytes, thin.length) == 0 && kept_bytes(out, thin.length, ROOM));
    memset(out, BEFORE, ROOM);
    EXPECT(accepted(ask(from[i].bytes, from[i].length, out, ROOM), (uint32_t)thin.length));
    EXPECT(memcmp(out, thin.bytes, thin.length) == 0 && kept_bytes(out, thin.length, ROOM));
  }
}

static void thin_sheets(void) {
  const sheet s = statement(), d = schema(), again = label_again();
  const sheet thin_again = thin_of(&again);
  sheet marked = s;
  uint8_t out[ROOM];
  EXPECT(thin_of(&s).length == 98 && thin_of(&d).length == 99);
  converted(nurbellat_thin_statement, &s, 1);
  converted(nurbellat_thin_schema, &d, 2);
  memset(out, BEFORE, ROOM);
  marked.bytes[3] = 128;
  EXPECT(refused(nurbellat_read_statement(marked.bytes, marked.length), 3, 1, 0));
  EXPECT(refused(nurbellat_thin_statement(marked.bytes, marked.length, out, ROOM), 3, 1, 0));
  EXPECT(refused(nurbellat_thin_statement(d.bytes, d.length, out, 0), 6, 1, 0));
  EXPECT(refused(nurbellat_thin_schema(s.bytes, s.length, out, 0), 6, 2, 0));
  EXPECT(refused(nurbellat_thin_schema(again.bytes, again.length, out, ROOM), 10, 2, 3));
  EXPECT(refused(nurbellat_thin_schema(thin_again.bytes, thin_again.length, out, 0), 10, 2, 3));
  EXPECT(kept_bytes(out, 0, ROOM));
}

/* The worked example with thin sheets: one of them, the other, both; and joined to a sheet of the first kind. */
static void thin_pairs(void) {
  static const uint32_t items[] = {3004, 6, 37, 4, 2, 1, 0, 3009, 6, 37, 4, 3, 0, 0};
  const sheet s = statement(), d = schema(), more = two_clauses(), both = both_statements();
  const sheet thin = thin_of(&s), thin_schema = thin_of(&d), thin_more = thin_of(&more);
  uint8_t out[ROOM];
  listed(nurbellat_check_schema_aware, &thin, &d, items, 2);
  listed(nurbellat_check_schema_aware, &s, &thin_schema, items, 2);
  listed(nurbellat_check_schema_aware, &thin, &thin_schema, items, 2);
  listed(nurbellat_margin_list, &thin, &thin_schema, items, 2);
  EXPECT(accepted(join_of(&thin, &more, out, ROOM), (uint32_t)both.length));
  EXPECT(memcmp(out, both.bytes, both.length) == 0);
  EXPECT(accepted(join_of(&s, &thin_more, out, both.length), (uint32_t)both.length));
  EXPECT(memcmp(out, both.bytes, both.length) == 0);
}

/* The longest sheet becomes the longest thin one, in which each end is 32,768. */
static void longest_thin_sheet(void) {
  static uint8_t bytes[NURBELLAT_MAX_SHEET], out[NURBELLAT_MAX_THIN_SHEET + 1];
  const size_t n = sized(bytes, 4096, 1024, 32768), thin = NURBELLAT_MAX_THIN_SHEET;
  EXPECT(n == NURBELLAT_MAX_SHEET);
  EXPECT(refused(nurbellat_thin_statement(bytes, n, out, thin - 1), 16, 0, 0));
  EXPECT(accepted(nurbellat_thin_statement(bytes, n, out, thin), NURBELLAT_MAX_THIN_SHEET));
  EXPECT(out[12 + 5 * 4096] == 0 && out[12 + 5 * 4096 + 1] == 128);
  EXPECT(accepted(nurbellat_read_statement(out, thin), 0));
  EXPECT(refused(nurbellat_read_statement(out, thin + 1), 3, 1, 0));
}

int main(void) {
  reading();
  checking();
  margins();
  messages();
  names();
  endpoints();
  digests();
  row_sheets();
  longest_row_sheet();
  rows();
  joined();
  joined_list();
  longest_joined_sheet();
  thin_sheets();
  thin_pairs();
  longest_thin_sheet();
  printf("header: %d right, %d wrong\n", tried - failed, failed);
  return failed != 0;
}
