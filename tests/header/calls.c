/* Calls every function of the header, with values that a swapped field, a swapped argument or a wrong width would show. The numbers are
 * written out: each answer is the paper's. Ends with 1 if one differs. */
#include "compare.h"

/* ---- the types, as the header gives them */

#define HOLDS(name, test) typedef char name[(test) ? 1 : -1]
HOLDS(count_is_8, sizeof(shrike_count) == 8);
HOLDS(count_number_at_0, offsetof(shrike_count, number) == 0);
HOLDS(count_count_at_4, offsetof(shrike_count, count) == 4);
HOLDS(spot_is_16, sizeof(shrike_spot) == 16);
HOLDS(spot_number_at_0, offsetof(shrike_spot, number) == 0);
HOLDS(spot_offset_at_8, offsetof(shrike_spot, offset) == 8);
HOLDS(verdict_is_8, sizeof(shrike_verdict) == 8);
HOLDS(verdict_number_at_0, offsetof(shrike_verdict, number) == 0);
HOLDS(verdict_place_at_4, offsetof(shrike_verdict, place) == 4);
HOLDS(answer_is_24, sizeof(shrike_answer) == 24);
HOLDS(answer_number_at_0, offsetof(shrike_answer, number) == 0);
HOLDS(answer_place_at_4, offsetof(shrike_answer, place) == 4);
HOLDS(answer_used_at_8, offsetof(shrike_answer, used) == 8);
HOLDS(answer_change_at_16, offsetof(shrike_answer, change) == 16);
HOLDS(answer_children_at_20, offsetof(shrike_answer, children) == 20);
HOLDS(listed_is_32, sizeof(shrike_listed) == 32);
HOLDS(listed_last_at_0, offsetof(shrike_listed, last) == 0);
HOLDS(listed_done_at_24, offsetof(shrike_listed, done) == 24);
HOLDS(grouped_is_24, sizeof(shrike_grouped) == 24);
HOLDS(grouped_number_at_0, offsetof(shrike_grouped, number) == 0);
HOLDS(grouped_place_at_4, offsetof(shrike_grouped, place) == 4);
HOLDS(grouped_used_at_8, offsetof(shrike_grouped, used) == 8);
HOLDS(grouped_change_at_16, offsetof(shrike_grouped, change) == 16);
HOLDS(grouped_which_at_20, offsetof(shrike_grouped, which) == 20);
HOLDS(compared_is_12, sizeof(shrike_compared) == 12);
HOLDS(compared_number_at_0, offsetof(shrike_compared, number) == 0);
HOLDS(compared_takes_all_at_4, offsetof(shrike_compared, takes_all) == 4);
HOLDS(compared_length_at_8, offsetof(shrike_compared, length) == 8);
HOLDS(lengths_have_64_bits, sizeof(size_t) == 8);

static shrike_count (*const read_file)(const uint8_t *, size_t, uint32_t *, size_t) = shrike_read;
static shrike_count (*const write_file)(const uint32_t *, size_t, uint8_t *, size_t) = shrike_write;
static shrike_count (*const import)(const uint8_t *, size_t, uint8_t *, size_t) = shrike_import;
static shrike_count (*const list_names)(const uint8_t *, size_t, uint8_t *, size_t) = shrike_names;
static shrike_spot (*const import_spot)(const uint8_t *, size_t) = shrike_import_spot;
static uint32_t (*const translate)(const uint8_t *, size_t, uint64_t *, size_t) = shrike_translate;
static shrike_verdict (*const check)(const uint64_t *, size_t, const uint32_t *, size_t, uint64_t, int32_t *) = shrike_check;
static shrike_answer (*const edit)(const uint64_t *, size_t, uint32_t *, size_t, uint64_t, uint32_t, uint64_t, const uint32_t *, size_t,
                                   uint32_t *, size_t, int32_t *) = shrike_edit;
static shrike_listed (*const list)(const uint64_t *, size_t, uint32_t *, size_t, uint64_t, const uint32_t *, size_t, int32_t *) = shrike_list;
static shrike_grouped (*const group)(const uint64_t *, size_t, uint32_t *, size_t, uint64_t, const uint32_t *, size_t, uint32_t *,
                                    size_t) = shrike_group;
static shrike_count (*const elements)(const uint64_t *, size_t, const int32_t *, uint32_t) = shrike_elements;
static shrike_compared (*const compare)(const uint64_t *, size_t, const uint64_t *, size_t, uint32_t, uint32_t *, size_t) = shrike_compare;

/* ---- the small shade */

#define TABLE 6675
#define PLACES 40
#define FILLED 0xfeedu
static const uint64_t OVER = UINT64_C(1) << 32;

static const uint8_t schema[] = {4, 0, 2, 5, 0, 4, 6, 3, 8, 1, 0, 0, 0, 2, 2, 3, 7, 1, 1, 1, 0, 1, 0, 0, 1, 2, 2, 0};
static const uint8_t file[] = {1, 4, 61, 9, 12, 165, 1, 17, 243, 1, 2, 2, 25, 20, 165, 1, 2, 2};
static const uint32_t shade[] = {1, 4, 61, 9, 12, 165, 17, 243, 2, 2, 25, 20, 165, 2, 2};
static const uint32_t panel[] = {9, 12, 173, 2};
enum { SCHEMA = sizeof schema, FILE_LENGTH = sizeof file, SHADE = sizeof shade / sizeof *shade, PANEL = 4 };

/* A document's buffer: the tokens, and filled behind them. */
static void fill(uint32_t *doc, const uint32_t *tokens, size_t n) {
    for (size_t i = 0; i < PLACES; i++) doc[i] = i < n ? tokens[i] : FILLED;
}

/* Counts that no edit here brings to an end of their range. */
#define COUNTS 48
static int32_t *hundreds(void) {
    static int32_t counts[COUNTS];
    for (size_t i = 0; i < COUNTS; i++) counts[i] = 100;
    return counts;
}

/* Linux's numbers. */
enum { CLOSED = 0, READ_WRITE = 3, PRIVATE_ANONYMOUS_UNRESERVED = 0x4022 };

/* n bytes of address space of which the first page alone may be touched, or none. */
static void *reserve(size_t n, int page) {
    void *p = mmap(NULL, n, CLOSED, PRIVATE_ANONYMOUS_UNRESERVED, -1, 0);
    if (p == (void *)-1 || (page && mprotect(p, 4096, READ_WRITE) != 0)) {
        perror("address space");
        return NULL;
    }
    return p;
}

static uint64_t table[TABLE], before[TABLE];

static void readers(void) {
    uint32_t got[PLACES], due[PLACES];
    fill(got, shade, 0);
    fill(due, shade, SHADE);
    COUNTED(read_file(file, FILE_LENGTH, got, SHADE), 0, SHADE);
    BYTES(got, due, sizeof got);
    fill(got, shade, 0);
    fill(due, shade, 0);
    COUNTED(read_file(file, FILE_LENGTH, got, SHADE - 1), 5, 0);
    COUNTED(read_file(file, 6, got, PLACES), 1, 0);
    COUNTED(read_file(file, 0, got, PLACES), 0, 0);
    COUNTED(read_file(NULL, 0, NULL, 0), 0, 0);
    BYTES(got, due, sizeof got);
    static const uint8_t largest[] = {255, 255, 127};
    COUNTED(read_file(largest, 3, got, 1), 0, 1);
    SAME("token", got[0], 2097151);
    SAME("token", got[1], FILLED);
}

static void writers(void) {
    uint8_t got[PLACES], due[PLACES];
    static uint32_t many[8193];
    memset(got, 99, sizeof got);
    memset(due, 99, sizeof due);
    memcpy(due, file, FILE_LENGTH);
    COUNTED(write_file(shade, SHADE, got, FILE_LENGTH), 0, FILE_LENGTH);
    BYTES(got, due, sizeof got);
    memset(got, 99, sizeof got);
    memset(due, 99, sizeof due);
    static const uint32_t large[] = {2097152};
    COUNTED(write_file(shade, SHADE, got, FILE_LENGTH - 1), 5, 0);
    COUNTED(write_file(large, 1, got, sizeof got), 4, 0);
    COUNTED(write_file(many, 8193, got, sizeof got), 5, 0);
    COUNTED(write_file(NULL, 0, NULL, 0), 0, 0);
    BYTES(got, due, sizeof got);
}

/* ---- DTD texts: the small shade, and texts that are refused */

static const char dtd[] = "<!ELEMENT shade (panel+,use*)><!-- a shade -->\n<!ATTLIST shade title CDATA #REQUIRED>\n"
                          "<!ELEMENT panel (row*)>\t<!ATTLIST panel id ID #REQUIRED><!ELEMENT row (#PCDATA)>\n"
                          "<!ELEMENT use EMPTY><!ATTLIST use of IDREF #REQUIRED>";
static const char name_list[] = "shade\npanel\nrow\nuse\ntitle\nid\nof\n";
enum { DTD = sizeof dtd - 1, LIST = sizeof name_list - 1 };

static const uint8_t *text_of(const char *text) { return (const uint8_t *)text; }

/* A text that is refused, by all three calls, with room or without. */
static void refused_text(int line, const char *text, uint32_t number, uint64_t offset) {
    uint8_t got[PLACES], due[PLACES];
    size_t n = strlen(text);
    memset(got, 99, sizeof got);
    memset(due, 99, sizeof due);
    counted(line, import(text_of(text), n, got, sizeof got), number, 0);
    counted(line, list_names(text_of(text), n, got, sizeof got), number, 0);
    counted(line, import(text_of(text), n, NULL, 0), number, 0);
    counted(line, list_names(text_of(text), n, NULL, 0), number, 0);
    spotted(line, import_spot(text_of(text), n), number, offset);
    bytes_same(line, got, due, sizeof got);
}
#define REFUSED_TEXT(text, number, offset) refused_text(__LINE__, text, number, offset)

static void importers(void) {
    uint8_t got[PLACES], due[PLACES];
    /* done: the file and the list, and what was behind them */
    memset(got, 99, sizeof got);
    memset(due, 99, sizeof due);
    memcpy(due, schema, SCHEMA);
    COUNTED(import(text_of(dtd), DTD, got, SCHEMA), 0, SCHEMA);
    BYTES(got, due, sizeof got);
    memset(got, 99, sizeof got);
    memset(due, 99, sizeof due);
    memcpy(due, name_list, LIST);
    COUNTED(list_names(text_of(dtd), DTD, got, LIST), 0, LIST);
    BYTES(got, due, sizeof got);
    SPOTTED(import_spot(text_of(dtd), DTD), 0, 0);
    /* no room: nothing is written */
    memset(got, 99, sizeof got);
    memset(due, 99, sizeof due);
    COUNTED(import(text_of(dtd), DTD, got, SCHEMA - 1), 5, 0);
    COUNTED(list_names(text_of(dtd), DTD, got, LIST - 1), 5, 0);
    COUNTED(import(text_of(dtd), DTD, NULL, 0), 5, 0);
    COUNTED(list_names(text_of(dtd), DTD, NULL, 0), 5, 0);
    BYTES(got, due, sizeof got);
    /* nothing is no text */
    COUNTED(import(NULL, 0, NULL, 0), 14, 0);
    COUNTED(list_names(NULL, 0, NULL, 0), 14, 0);
    SPOTTED(import_spot(NULL, 0), 14, 0);
    /* every length short of the whole: without its last declaration it is taken, else refused as it stops too early */
    const size_t last = DTD - strlen("<!ATTLIST use of IDREF #REQUIRED>");
    for (size_t n = 0; n < DTD; n++) {
        shrike_spot spot = import_spot(text_of(dtd), n);
        SAME("number of a text cut short", spot.number, n == last ? 0 : 14);
        SAME("offset of a text cut short", spot.offset <= n, 1);
    }
    REFUSED_TEXT("<!ELEMENT a ANY>", 14, 12);
    REFUSED_TEXT("<!ELEMENT a (#PCDATA)*>", 14, 21);
    REFUSED_TEXT("<!ELEMENT a (b) *><!ELEMENT b EMPTY>", 14, 16);
    REFUSED_TEXT("<!ELEMENT a (b,c|b)><!ELEMENT b EMPTY>", 14, 16);
    REFUSED_TEXT("<!ELEMENT a EMPTY><!ELEMENT a EMPTY>", 14, 28);
    REFUSED_TEXT("<!ELEMENT a EMPTY><!ATTLIST a i CDATA #IMPLIED i", 14, 47);
    REFUSED_TEXT("<!ELEMENT a EMPTY><!ATTLIST a i CDATA #IMPLIED i2", 14, 49);
    REFUSED_TEXT("<!ELEMENT a EMPTY><!ATTLIST a i CDATA #IMPLIED i ", 14, 47);
    REFUSED_TEXT("<!ELEMENT a EMPTY><!ATTLIST a i IDX #IMPLIED>", 14, 34);
    REFUSED_TEXT("<!ELEMENT a EMPTY><!ATTLIST a i ID #FIXED 'x'>", 14, 36);
    REFUSED_TEXT("<!ELEMENT a (b)><!ATTLIST c><!ELEMENT a2 EMPTY>", 14, 13);
    REFUSED_TEXT("<!ATTLIST c>", 14, 12);
    REFUSED_TEXT("<!-- -- --><!ELEMENT a EMPTY>", 14, 7);
    REFUSED_TEXT("<!ELEMENT a EMPTY><!ATTLIST a i ID #IMPLIED j ID #REQUIRED>", 2, 46);
    REFUSED_TEXT("<!ELEMENT a EMPTY><!ATTLIST a i ID #IMPLIED><!ATTLIST a j ID !", 2, 58);
}

static void translators(void) {
    /* (a?, a), which is ambiguous */
    static const uint8_t ambiguous[] = {2, 0, 2, 4, 0, 2, 6, 6, 0, 0, 0};
    static const uint64_t first_block[] = {2, 1, 1, 0, 0, 0, 2, 0, 1, 3, 1, 3};
    static const uint8_t more[] = {1, 0, 0, 0, 0};
    for (size_t i = 0; i < TABLE; i++) before[i] = table[i] = i;
    SAME("number", translate(schema, SCHEMA, table, TABLE - 1), 13);
    SAME("number", translate(schema, SCHEMA, table, 0), 13);
    SAME("number", translate(schema, SCHEMA - 1, table, TABLE), 1);
    SAME("number", translate(NULL, 0, table, TABLE), 1);
    SAME("number", translate(more, sizeof more, table, TABLE), 2);
    SAME("number", translate(ambiguous, sizeof ambiguous, table, TABLE), 3);
    BYTES(table, before, sizeof table);
    SAME("number", translate(schema, SCHEMA, table, TABLE), 0);
    SAME("elements", table[0], 4);
    SAME("root", table[1], 0);
    BYTES(table + 2, first_block, sizeof first_block);
    SAME("follow set", table[2 + 74], 3);
    SAME("follow set", table[2 + 75], 2);
    SAME("last word", table[TABLE - 1], 0);
    memcpy(before, table, sizeof table);
}

static void checks(void) {
    uint32_t doc[PLACES], due[PLACES];
    static const uint32_t no_text[] = {1, 4, 61, 9, 12, 165, 17, 2, 2, 25, 20, 165, 2, 2};
    static const uint32_t two_texts[] = {1, 4, 61, 9, 12, 165, 17, 243, 243, 2, 2, 25, 20, 165, 2, 2};
    fill(doc, shade, SHADE);
    fill(due, shade, SHADE);
    JUDGED(check(table, TABLE, doc, PLACES, SHADE, hundreds()), 0, 0);
    JUDGED(check(table, TABLE, doc, SHADE, SHADE, hundreds()), 0, 0);
    JUDGED(check(table, TABLE, doc, SHADE - 1, SHADE, hundreds()), 4, 0);
    JUDGED(check(table, TABLE, doc, PLACES, SHADE - 1, hundreds()), 4, 0);
    JUDGED(check(table, TABLE, doc, PLACES, OVER + SHADE, hundreds()), 4, 0);
    JUDGED(check(table, TABLE - 1, doc, PLACES, SHADE, hundreds()), 13, 0);
    JUDGED(check(NULL, 0, doc, PLACES, SHADE, hundreds()), 13, 0);
    JUDGED(check(table, TABLE, NULL, 0, SHADE, hundreds()), 4, 0);
    BYTES(doc, due, sizeof doc);
    JUDGED(check(table, TABLE, no_text, 14, 14, hundreds()), 0, 0);
    JUDGED(check(table, TABLE, two_texts, 16, 16, hundreds()), 9, 8);
}

static void edits(void) {
    uint32_t doc[PLACES], due[PLACES], back[PLACES], back_due[PLACES];
    fill(doc, shade, SHADE);
    fill(due, shade, SHADE);
    fill(back, NULL, 0);
    fill(back_due, NULL, 0);
    /* refusals: the used length comes back as it was given, and nothing is written */
    ANSWERED(edit(table, TABLE, doc, PLACES, SHADE, 1, 7, shade + 7, 1, back, PLACES, hundreds()), 9, 8, SHADE, 0, 0);
    ANSWERED(edit(table, TABLE, doc, PLACES, SHADE, 3, 3, panel, PANEL, back, PLACES, hundreds()), 12, 9, SHADE, 0, 0);
    ANSWERED(edit(table, TABLE, doc, PLACES, OVER + SHADE, 2, 10, NULL, 0, back, PLACES, hundreds()), 4, 0, OVER + SHADE, 0, 0);
    ANSWERED(edit(table, TABLE, doc, PLACES, UINT64_MAX, 2, 10, NULL, 0, back, PLACES, hundreds()), 4, 0, UINT64_MAX, 0, 0);
    ANSWERED(edit(table, TABLE, doc, PLACES, SHADE, 2, OVER + 10, NULL, 0, back, PLACES, hundreds()), 6, 0, SHADE, 0, 0);
    ANSWERED(edit(table, TABLE, doc, PLACES, SHADE, UINT32_MAX, 10, NULL, 0, back, PLACES, hundreds()), 6, 0, SHADE, 0, 0);
    ANSWERED(edit(table, TABLE, doc, PLACES, SHADE, 65536 + 2, 10, NULL, 0, back, PLACES, hundreds()), 6, 0, SHADE, 0, 0);
    ANSWERED(edit(table, TABLE, doc, PLACES, SHADE, 1, 10, panel, PANEL - 1, back, PLACES, hundreds()), 4, 0, SHADE, 0, 0);
    ANSWERED(edit(table, TABLE, doc, SHADE + PANEL - 1, SHADE, 1, 10, panel, PANEL, back, PLACES, hundreds()), 5, 0, SHADE, 0, 0);
    ANSWERED(edit(table, TABLE, doc, SHADE - 1, SHADE, 2, 10, NULL, 0, back, PLACES, hundreds()), 4, 0, SHADE, 0, 0);
    ANSWERED(edit(table, TABLE - 1, doc, PLACES, OVER + 1, 2, 10, NULL, 0, back, PLACES, hundreds()), 13, 0, OVER + 1, 0, 0);
    ANSWERED(edit(NULL, 0, NULL, 0, OVER, 0, 0, NULL, 0, NULL, 0, hundreds()), 13, 0, OVER, 0, 0);
    /* the second buffer: after the place, and before the document is judged */
    ANSWERED(edit(table, TABLE, doc, PLACES, SHADE, 2, SHADE, NULL, 0, NULL, 0, hundreds()), 6, 0, SHADE, 0, 0);
    ANSWERED(edit(table, TABLE, doc, PLACES, SHADE, 2, 3, NULL, 0, NULL, 0, hundreds()), 5, 0, SHADE, 0, 0);
    ANSWERED(edit(table, TABLE, doc, PLACES, SHADE, 2, 3, NULL, 0, back, 9, hundreds()), 5, 0, SHADE, 0, 0);
    ANSWERED(edit(table, TABLE, doc, PLACES, SHADE, 2, 3, NULL, 0, back, 10, hundreds()), 9, 3, SHADE, 0, 0);
    BYTES(doc, due, sizeof doc);
    BYTES(back, back_due, sizeof back);
    /* done: tokens come, and tokens go */
    static const uint32_t longer[] = {1, 4, 61, 9, 12, 165, 17, 243, 2, 2, 9, 12, 173, 2, 25, 20, 165, 2, 2};
    static const uint32_t shorter[] = {1, 4, 61, 9, 12, 165, 17, 243, 2, 2, 2, 0, 0, 0, 0};
    fill(due, longer, SHADE + PANEL);
    ANSWERED(edit(table, TABLE, doc, SHADE + PANEL, SHADE, 1, 10, panel, PANEL, back, PLACES, hundreds()), 0, 0, SHADE + PANEL, PANEL, 3);
    BYTES(doc, due, sizeof doc);
    fill(doc, shade, SHADE);
    fill(due, shorter, SHADE);
    ANSWERED(edit(table, TABLE, doc, PLACES, SHADE, 2, 10, NULL, 0, back, PLACES, hundreds()), 0, 0, 11, -4, 1);
    BYTES(doc, due, sizeof doc);
    BYTES(table, before, sizeof table);
}

/* Children looked at: of the parent and of each element in the piece; of the piece alone, if it is the root; of the element that is set. */
static void children(void) {
    uint32_t doc[PLACES], back[PLACES];
    static const uint32_t rows[] = {9, 12, 165, 17, 243, 2, 17, 251, 2, 2}, title[] = {4, 69}, label[] = {12, 165};
    fill(doc, shade, SHADE);
    ANSWERED(edit(table, TABLE, doc, PLACES, SHADE, 3, 3, rows, 10, back, PLACES, hundreds()), 0, 0, SHADE + 3, 3, 2 + 2 + 1 + 1);
    ANSWERED(edit(table, TABLE, doc, PLACES, SHADE + 3, 3, 0, shade, SHADE, back, PLACES, hundreds()), 0, 0, SHADE, -3, 2 + 1 + 1);
    ANSWERED(edit(table, TABLE, doc, PLACES, SHADE, 3, 7, rows + 7, 1, back, PLACES, hundreds()), 0, 0, SHADE, 0, 1);
    ANSWERED(edit(table, TABLE, doc, PLACES, SHADE, 4, 0, title, 2, back, PLACES, hundreds()), 0, 0, SHADE, 0, 2);
    ANSWERED(edit(table, TABLE, doc, PLACES, SHADE, 4, 3, label, 2, back, PLACES, hundreds()), 0, 0, SHADE, 0, 1);
}

/* ---- steps back: element 0 has any number of elements 1, and attributes 0 and 1 that may be absent, 1 of IDREFS; element 1 has an ID */

static const uint8_t free_schema[] = {2, 0, 2, 2, 3, 6, 2, 0, 0, 1, 1, 3, 1, 0, 1, 2, 1, 0};
static const uint32_t free_doc[] = {1, 12, 165, 173, 9, 20, 165, 2, 9, 20, 173, 2, 9, 20, 189, 2, 2};
enum { FREE = sizeof free_doc / sizeof *free_doc };
static uint64_t free_table[TABLE];

/* An edit that is done, if the second buffer has the room that `inverse` takes, and then writes that there. Taken back it leaves the document
 * as it was, and in the other buffer the edit itself. */
static void taken_back(int line, uint32_t operation, uint64_t place, const uint32_t *piece, size_t n, const uint32_t *inverse, size_t room) {
    uint32_t doc[PLACES], back[PLACES], due[PLACES], other[PLACES];
    fill(doc, free_doc, FREE);
    fill(due, free_doc, FREE);
    fill(back, NULL, 0);
    fill(other, NULL, 0);
    for (size_t less = 0; less < room; less++)
        answered(line, edit(free_table, TABLE, doc, PLACES, FREE, operation, place, piece, n, back, less, hundreds()), 5, 0, FREE, 0, 0);
    bytes_same(line, doc, due, sizeof doc);
    bytes_same(line, back, other, sizeof back);
    shrike_answer there = edit(free_table, TABLE, doc, PLACES, FREE, operation, place, piece, n, back, room, hundreds());
    same(line, "number", there.number, 0);
    fill(due, inverse, room);
    bytes_same(line, back, due, sizeof back);
    shrike_answer again = edit(free_table, TABLE, doc, PLACES, there.used, back[0], back[1], back + 3, back[2], other, 3 + n, hundreds());
    same(line, "number", again.number, 0);
    same(line, "used", again.used, FREE);
    same(line, "change", (uint64_t)(int64_t)again.change, (uint64_t)-(int64_t)there.change);
    bytes_same(line, doc, free_doc, sizeof free_doc);
    same(line, "operation", other[0], operation);
    same(line, "place", other[1], place);
    same(line, "count", other[2], n);
    if (n > 0) bytes_same(line, other + 3, piece, n * sizeof *piece);
    same(line, "behind", other[3 + n], FILLED);
}
#define TAKEN_BACK(operation, place, piece, n, inverse) taken_back(__LINE__, operation, place, piece, n, inverse, sizeof inverse / 4)

static void steps_back(void) {
    static const uint32_t child[] = {9, 20, 181, 2}, root[] = {1, 2}, title[] = {4, 61}, reference[] = {12, 173};
    static const uint32_t to_insert[] = {2, 4, 0}, to_remove[] = {1, 12, 4, 9, 20, 189, 2}, to_replace[] = {3, 12, 4, 9, 20, 189, 2};
    static const uint32_t to_replace_all[] = {3, 0, FREE, 1, 12, 165, 173, 9, 20, 165, 2, 9, 20, 173, 2, 9, 20, 189, 2, 2};
    static const uint32_t to_add[] = {5, 0, 1, 4}, to_set[] = {4, 0, 3, 12, 165, 173};
    SAME("number", translate(free_schema, sizeof free_schema, free_table, TABLE), 0);
    JUDGED(check(free_table, TABLE, free_doc, FREE, FREE, hundreds()), 0, 0);
    TAKEN_BACK(1, 4, child, 4, to_insert);
    TAKEN_BACK(2, 12, NULL, 0, to_remove);
    TAKEN_BACK(3, 12, child, 4, to_replace);
    TAKEN_BACK(3, 0, root, 2, to_replace_all);
    TAKEN_BACK(4, 0, title, 2, to_add);
    TAKEN_BACK(4, 0, reference, 2, to_set);
    TAKEN_BACK(4, 0, free_doc + 1, 3, to_set);
    TAKEN_BACK(5, 0, reference, 1, to_set);
}

/* ---- lists: a second panel comes, the use goes, the first panel goes */

static const uint32_t step[] = {1, 10, 4, 9, 12, 173, 2, 2, 14, 0, 2, 3, 0};
enum { STEP = sizeof step / sizeof *step, FIRST_EDIT = 7, TWO_EDITS = 10, MOST = 256, NUMBERS = 5 };

static void lists(void) {
    uint32_t doc[PLACES], due[PLACES], more[STEP + 3];
    static const uint32_t left[] = {1, 4, 61, 9, 12, 173, 2, 2, 0, 0, 0, 0, 0, 0, 0, 0, 0, 0, 0};
    static const uint32_t inserted[] = {1, 4, 61, 9, 12, 165, 17, 243, 2, 2, 9, 12, 173, 2, 25, 20, 165, 2, 2};
    static const uint32_t title[NUMBERS] = {4, 0, 2, 4, 69};
    static uint32_t many[NUMBERS * (MOST + 1)], long_piece[3 + 8193];
    /* the list itself is refused: nothing is written, and the used length comes back as it was given */
    fill(doc, shade, SHADE);
    fill(due, shade, SHADE);
    LISTED(list(table, TABLE, doc, PLACES, SHADE, NULL, 0, hundreds()), 4, 0, SHADE, 0, 0, 0);
    for (size_t n = 1; n < STEP; n++)
        if (n != FIRST_EDIT && n != TWO_EDITS) LISTED(list(table, TABLE, doc, PLACES, SHADE, step, n, hundreds()), 4, 0, SHADE, 0, 0, 0);
    for (size_t i = 0; i <= MOST; i++) memcpy(many + NUMBERS * i, title, sizeof title);
    for (size_t n = NUMBERS * MOST + 1; n <= NUMBERS * (MOST + 1); n++)
        LISTED(list(table, TABLE, doc, PLACES, SHADE, many, n, hundreds()), 5, 0, SHADE, 0, 0, 0);
    LISTED(list(NULL, 0, NULL, 0, UINT64_MAX, NULL, 0, hundreds()), 4, 0, UINT64_MAX, 0, 0, 0);
    LISTED(list(NULL, 0, NULL, 0, OVER, many, NUMBERS * MOST + 1, hundreds()), 5, 0, OVER, 0, 0, 0);
    /* table, shape, and an edit that is refused first */
    LISTED(list(table, TABLE - 1, doc, PLACES, OVER + 1, step, STEP, hundreds()), 13, 0, OVER + 1, 0, 0, 0);
    LISTED(list(table, TABLE, doc, SHADE - 1, SHADE, step, STEP, hundreds()), 4, 0, SHADE, 0, 0, 0);
    LISTED(list(table, TABLE, doc, PLACES, OVER + SHADE, step, STEP, hundreds()), 4, 0, OVER + SHADE, 0, 0, 0);
    LISTED(list(table, TABLE, doc, PLACES, SHADE, step + TWO_EDITS, 3, hundreds()), 9, 3, SHADE, 0, 0, 0);
    LISTED(list(table, TABLE, doc, SHADE + PANEL - 1, SHADE, step, STEP, hundreds()), 5, 0, SHADE, 0, 0, 0);
    BYTES(doc, due, sizeof doc);
    /* done: one, two and three of the edits, and zeros up to the longest */
    fill(due, inserted, SHADE + PANEL);
    LISTED(list(table, TABLE, doc, SHADE + PANEL, SHADE, step, FIRST_EDIT, hundreds()), 0, 0, SHADE + PANEL, PANEL, 3, 1);
    BYTES(doc, due, sizeof doc);
    fill(doc, shade, SHADE);
    LISTED(list(table, TABLE, doc, PLACES, SHADE, step, TWO_EDITS, hundreds()), 0, 0, SHADE, -4, 2, 2);
    fill(doc, shade, SHADE);
    fill(due, left, SHADE + PANEL);
    LISTED(list(table, TABLE, doc, PLACES, SHADE, step, STEP, hundreds()), 0, 0, 8, -7, 1, 3);
    BYTES(doc, due, sizeof doc);
    /* a fourth that is refused: the three stand */
    memcpy(more, step, sizeof step);
    memcpy(more + STEP, step + TWO_EDITS, 3 * sizeof *step);
    fill(doc, shade, SHADE);
    LISTED(list(table, TABLE, doc, PLACES, SHADE, more, STEP + 3, hundreds()), 9, 3, 8, 0, 0, 3);
    BYTES(doc, due, sizeof doc);
    /* as many as there may be; a piece over 8,192 tokens */
    fill(doc, shade, SHADE);
    fill(due, shade, SHADE);
    due[2] = 69;
    LISTED(list(table, TABLE, doc, PLACES, SHADE, many, NUMBERS * MOST, hundreds()), 0, 0, SHADE, 0, 2, MOST);
    BYTES(doc, due, sizeof doc);
    long_piece[0] = 1, long_piece[1] = 7, long_piece[2] = 8193;
    for (size_t i = 3; i < sizeof long_piece / sizeof *long_piece; i++) long_piece[i] = 243;
    LISTED(list(table, TABLE, doc, PLACES, SHADE, long_piece, sizeof long_piece / sizeof *long_piece, hundreds()), 4, 0, SHADE, 0, 0, 0);
    BYTES(doc, due, sizeof doc);
    BYTES(table, before, sizeof table);
}

/* ---- counts: those of the shade, and numbers that are not true */

/* The first four counts are these, and the others are all alike. */
static void counts_are(int line, const int32_t *counts, int32_t a, int32_t b, int32_t c, int32_t d, int32_t rest) {
    const int32_t due[] = {a, b, c, d};
    bytes_same(line, counts, due, sizeof due);
    for (size_t i = 4; i < COUNTS; i++) same(line, "count", (uint64_t)(int64_t)counts[i], (uint64_t)(int64_t)rest);
}
#define COUNTS_ARE(counts, a, b, c, d, rest) counts_are(__LINE__, counts, a, b, c, d, rest)

/* An edit and a list of it, with one count that is any number: refused, and nothing is written; or done. */
static void with_count(int line, uint32_t at, int32_t count, uint32_t operation, uint64_t place, const uint32_t *piece, size_t n,
                       uint32_t number) {
    uint32_t doc[PLACES], due[PLACES], back[PLACES], back_due[PLACES], one[PLACES];
    int32_t counts[COUNTS], kept[COUNTS];
    one[0] = operation, one[1] = (uint32_t)place, one[2] = (uint32_t)n;
    for (size_t i = 0; i < n; i++) one[3 + i] = piece[i];
    for (int as_list = 0; as_list < 2; as_list++) {
        fill(doc, shade, SHADE);
        fill(due, shade, SHADE);
        fill(back, NULL, 0);
        fill(back_due, NULL, 0);
        for (size_t i = 0; i < COUNTS; i++) kept[i] = counts[i] = i == at ? count : 100;
        shrike_answer r = as_list ? list(table, TABLE, doc, PLACES, SHADE, one, 3 + n, counts).last
                                  : edit(table, TABLE, doc, PLACES, SHADE, operation, place, piece, n, back, PLACES, counts);
        same(line, "number", r.number, number);
        same(line, "place", r.place, 0);
        if (number == 0) continue;
        same(line, "used", r.used, SHADE);
        bytes_same(line, doc, due, sizeof doc);
        bytes_same(line, back, back_due, sizeof back);
        bytes_same(line, counts, kept, sizeof counts);
    }
}
#define WITH_COUNT(at, count, operation, place, piece, n, number) with_count(__LINE__, at, count, operation, place, piece, n, number)

static void counts(void) {
    uint32_t doc[PLACES], back[PLACES];
    int32_t kept[COUNTS];
    static const uint32_t title[] = {4, 69};
    /* a check that says valid writes them; another leaves them */
    for (size_t i = 0; i < COUNTS; i++) kept[i] = -7;
    fill(doc, shade, SHADE);
    JUDGED(check(table, TABLE, doc, PLACES, SHADE - 1, kept), 4, 0);
    JUDGED(check(table, TABLE - 1, doc, PLACES, SHADE, kept), 13, 0);
    COUNTS_ARE(kept, -7, -7, -7, -7, -7);
    JUDGED(check(table, TABLE, doc, PLACES, SHADE, kept), 0, 0);
    COUNTS_ARE(kept, 1, 1, 1, 1, 0);
    /* edits carry them along: a panel comes, a refused one leaves them, a root with two panels of two rows comes and goes */
    static const uint32_t root[] = {1, 4, 61, 9, 12, 165, 17, 2, 17, 2, 2, 9, 12, 173, 17, 2, 17, 2, 2, 2};
    ANSWERED(edit(table, TABLE, doc, PLACES, SHADE, 1, 10, panel, PANEL, back, PLACES, kept), 0, 0, SHADE + PANEL, PANEL, 3);
    COUNTS_ARE(kept, 1, 2, 1, 1, 0);
    ANSWERED(edit(table, TABLE, doc, PLACES, SHADE + PANEL, 1, 10, panel, PANEL, back, PLACES, kept), 11, 16, SHADE + PANEL, 0, 0);
    COUNTS_ARE(kept, 1, 2, 1, 1, 0);
    ANSWERED(edit(table, TABLE, doc, PLACES, SHADE + PANEL, 3, 0, root, 20, back, PLACES, kept), 0, 0, 20, 1, 6);
    COUNTS_ARE(kept, 1, 2, 4, 0, 0);
    ANSWERED(edit(table, TABLE, doc, PLACES, 20, back[0], back[1], back + 3, back[2], doc + 20, PLACES - 20, kept), 5, 0, 20, 0, 0);
    COUNTS_ARE(kept, 1, 2, 4, 0, 0);
    /* lists too, as far as they go: the second panel again, the use, the first panel with its row, and one that is refused */
    const uint32_t refused[] = {1, 10, 4, 9, 12, 173, 2, 2, 14, 0, 2, 3, 0, 2, 3, 0};
    fill(doc, shade, SHADE);
    JUDGED(check(table, TABLE, doc, PLACES, SHADE, kept), 0, 0);
    LISTED(list(table, TABLE, doc, PLACES, SHADE, refused, 16, kept), 9, 3, 8, 0, 0, 3);
    COUNTS_ARE(kept, 1, 1, 0, 0, 0);
    LISTED(list(table, TABLE, doc, PLACES, 8, refused, 15, kept), 4, 0, 8, 0, 0, 0);
    COUNTS_ARE(kept, 1, 1, 0, 0, 0);
    /* any numbers: 15 behind 5 and before the judgement; sums are exact */
    WITH_COUNT(1, 8191, 1, 10, panel, PANEL, 0);
    WITH_COUNT(1, 8192, 1, 10, panel, PANEL, 15);
    WITH_COUNT(1, -1, 1, 10, panel, PANEL, 0);
    WITH_COUNT(1, -2, 1, 10, panel, PANEL, 15);
    WITH_COUNT(1, INT32_MAX, 1, 10, panel, PANEL, 15);
    WITH_COUNT(3, 1, 2, 10, NULL, 0, 0);
    WITH_COUNT(3, 0, 2, 10, NULL, 0, 15);
    WITH_COUNT(3, 8193, 2, 10, NULL, 0, 0);
    WITH_COUNT(3, INT32_MIN, 2, 10, NULL, 0, 15);
    WITH_COUNT(47, 8192, 4, 0, title, 2, 0);
    WITH_COUNT(47, 8193, 4, 0, title, 2, 15);
    WITH_COUNT(47, -1, 4, 0, title, 2, 15);
    WITH_COUNT(47, -1, 2, 3, NULL, 0, 15);
    WITH_COUNT(47, -1, 2, SHADE, NULL, 0, 6);
    /* the question: 13, 15, and 0 for a name that the schema does not have */
    for (int32_t i = 0; i < COUNTS; i++) kept[i] = i + 1;
    COUNTED(elements(table, TABLE, kept, 0), 0, 1);
    COUNTED(elements(table, TABLE, kept, 3), 0, 4);
    COUNTED(elements(table, TABLE, kept, 4), 0, 0);
    COUNTED(elements(table, TABLE, kept, 47), 0, 0);
    COUNTED(elements(table, TABLE, kept, UINT32_MAX), 0, 0);
    kept[1] = 8192;
    COUNTED(elements(table, TABLE, kept, 1), 0, 8192);
    kept[47] = 8193;
    COUNTED(elements(table, TABLE, kept, 1), 15, 0);
    COUNTED(elements(table, TABLE, kept, 99), 15, 0);
    COUNTED(elements(table, TABLE - 1, kept, 1), 13, 0);
    COUNTED(elements(NULL, 0, kept, 1), 13, 0);
    kept[47] = -1;
    COUNTED(elements(table, TABLE, kept, 1), 15, 0);
    BYTES(table, before, sizeof table);
}

/* ---- groups: the panel 20 becomes 21, and what refers to it */

static void groups(void) {
    static const uint32_t rename[] = {4, 3, 2, 12, 173, 4, 10, 2, 20, 173};
    static const uint32_t renamed[] = {1, 4, 61, 9, 12, 173, 17, 243, 2, 2, 25, 20, 173, 2, 2};
    static const uint32_t over_19[] = {1, 10, 4, 9, 12, 165, 2, 2, 3, 0}, no_place[] = {1, 10, 4, 9, 12, 165, 2, 2, 19, 0};
    static const uint32_t shorter[] = {1, 4, 61, 9, 12, 165, 2, 25, 20, 165, 2, 2, 0, 0, 0, 0, 0, 0, 0};
    static const uint32_t longer[] = {1, 4, 61, 9, 12, 165, 17, 243, 2, 2, 9, 12, 165, 2, 25, 20, 165, 2, 2};
    enum { RENAME = 10, BEGUN = 5, LONGER = 19, SHORTER = 12 };
    uint32_t doc[PLACES], due[PLACES], second[PLACES], second_due[PLACES], many[3 * (MOST + 1)];
    fill(doc, shade, SHADE);
    fill(due, shade, SHADE);
    fill(second, NULL, 0);
    fill(second_due, NULL, 0);
    /* refused before any edit: nothing is written. The table, shape, the list, the second buffer */
    for (size_t i = 0; i < 3 * (MOST + 1); i++) many[i] = 0;
    GROUPED(group(table, TABLE - 1, doc, PLACES, OVER + 1, NULL, 0, NULL, 0), 13, 0, OVER + 1, 0, 0);
    GROUPED(group(table, TABLE, doc, PLACES, OVER + SHADE, NULL, 0, NULL, 0), 4, 0, OVER + SHADE, 0, 0);
    GROUPED(group(table, TABLE, doc, SHADE - 1, SHADE, many, 3 * (MOST + 1), NULL, 0), 4, 0, SHADE, 0, 0);
    GROUPED(group(table, TABLE, doc, PLACES, SHADE, NULL, 0, NULL, 0), 4, 0, SHADE, 0, 0);
    GROUPED(group(table, TABLE, doc, PLACES, SHADE, rename, RENAME - 1, second, PLACES), 4, 0, SHADE, 0, 0);
    GROUPED(group(table, TABLE, doc, PLACES, SHADE, many, 3 * MOST + 1, NULL, 0), 5, 0, SHADE, 0, 0);
    GROUPED(group(table, TABLE, doc, PLACES, SHADE, rename, RENAME, second, PLACES - 1), 5, 0, SHADE, 0, 0);
    BYTES(second, second_due, sizeof second);
    /* an edit that is refused, from 1 on; the second buffer has the document that was reached, and 0 up to the longest */
    fill(second_due, shade, SHADE);
    GROUPED(group(table, TABLE, doc, PLACES, SHADE, many, 3 * MOST, second, PLACES), 6, 0, SHADE, 0, 1);
    BYTES(second, second_due, sizeof second);
    fill(second_due, longer, LONGER);
    GROUPED(group(table, TABLE, doc, PLACES, SHADE, no_place, RENAME, second, PLACES), 6, 0, SHADE, 0, 2);
    BYTES(second, second_due, sizeof second);
    /* the size is the first buffer's */
    fill(second_due, shade, SHADE);
    fill(second, NULL, 0);
    GROUPED(group(table, TABLE, doc, LONGER - 1, SHADE, over_19, RENAME, second, PLACES), 5, 0, SHADE, 0, 1);
    BYTES(second, second_due, sizeof second);
    /* the last document's fault: each step of the rename alone */
    GROUPED(group(table, TABLE, doc, PLACES, SHADE, rename, BEGUN, second, PLACES), 12, 12, SHADE, 0, 0);
    GROUPED(group(table, TABLE, doc, PLACES, SHADE, rename + BEGUN, BEGUN, second, PLACES), 12, 12, SHADE, 0, 0);
    GROUPED(group(table, TABLE, doc, PLACES, SHADE, over_19, 7, second, PLACES), 11, 12, SHADE, 0, 0);
    BYTES(doc, due, sizeof doc);
    /* done: the rename; and what is longer on the way */
    fill(due, renamed, SHADE);
    fill(second, NULL, 0);
    GROUPED(group(table, TABLE, doc, SHADE, SHADE, rename, RENAME, second, SHADE), 0, 0, SHADE, 0, 0);
    BYTES(doc, due, sizeof doc);
    BYTES(second, due, sizeof second);
    fill(doc, shade, SHADE);
    fill(due, shorter, SHADE);
    fill(second, NULL, 0);
    fill(second_due, shorter, LONGER);
    GROUPED(group(table, TABLE, doc, PLACES, SHADE, over_19, RENAME, second, PLACES), 0, 0, SHORTER, -3, 0);
    BYTES(doc, due, sizeof doc);
    BYTES(second, second_due, sizeof second);
    BYTES(table, before, sizeof table);
}

/* ---- fixed attributes: element 0 has element 1 any number of times; both have attribute 3, fixed to 7 and to 65,535 */

static void fixed(void) {
    static const uint8_t house[] = {2, 0, 2, 2, 3, 6, 2, 3, 0, 2, 7, 4, 0, 1, 0, 1, 3, 0, 2, 255, 255, 3};
    static const uint8_t not_cdata[] = {1, 0, 0, 1, 3, 1, 2, 7}, over[] = {1, 0, 0, 1, 3, 0, 2, 128, 128, 4};
    static const uint8_t ended[] = {1, 0, 0, 1, 3, 0, 2};
    static const uint64_t entries[] = {2, 0, 3, 7, 1, 3, 65535, 0, 0, 0};
    static const uint32_t doc[] = {1, 28, 61, 36, 69, 9, 28, 524285, 2, 9, 2, 2}, other[] = {1, 28, 69, 2};
    static const uint32_t wrong_child[] = {1, 9, 28, 61, 2, 2};
    static const uint32_t seven[] = {28, 61}, eight[] = {28, 69};
    static const struct {
        size_t word;
        uint64_t value;
    } damage[] = {{0, 17}, {0, 1}, {0, 3}, {1, 1}, {1, 2}, {2, 5}, {2, 64}, {3, 65536}, {4, 0}, {5, 2}, {7, 1}, {48, 1}};
    static uint64_t house_table[TABLE];
    uint32_t lent[PLACES], back[PLACES];
    uint8_t many[4 + 4 * 17] = {1, 0, 0};
    SAME("number", translate(not_cdata, sizeof not_cdata, house_table, TABLE), 2);
    SAME("number", translate(over, sizeof over, house_table, TABLE), 2);
    SAME("number", translate(ended, sizeof ended, house_table, TABLE), 1);
    for (uint8_t n = 16; n <= 17; n++) {
        many[3] = n;
        for (uint8_t i = 0; i < n; i++) many[4 + 4 * i] = i, many[5 + 4 * i] = 0, many[6 + 4 * i] = 2, many[7 + 4 * i] = 9;
        SAME("number", translate(many, 4 + 4 * (size_t)n, house_table, TABLE), n == 16 ? 0 : 2);
    }
    SAME("last entry's value", house_table[TABLE - 1], 9);
    SAME("number", translate(house, sizeof house, house_table, TABLE), 0);
    BYTES(house_table + 6626, entries, sizeof entries);
    SAME("last word", house_table[TABLE - 1], 0);
    /* absent, or with its value */
    JUDGED(check(house_table, TABLE, doc, 12, 12, hundreds()), 0, 0);
    JUDGED(check(house_table, TABLE, other, 4, 4, hundreds()), 8, 0);
    JUDGED(check(house_table, TABLE, wrong_child, 6, 6, hundreds()), 8, 1);
    fill(lent, doc, 12);
    ANSWERED(edit(house_table, TABLE, lent, PLACES, 12, 4, 0, eight, 2, back, PLACES, hundreds()), 8, 0, 12, 0, 0);
    ANSWERED(edit(house_table, TABLE, lent, PLACES, 12, 4, 9, seven, 2, back, PLACES, hundreds()), 8, 9, 12, 0, 0);
    ANSWERED(edit(house_table, TABLE, lent, PLACES, 12, 4, 0, seven, 2, back, PLACES, hundreds()), 0, 0, 12, 0, 2);
    ANSWERED(edit(house_table, TABLE, lent, PLACES, 12, 5, 0, seven, 1, back, PLACES, hundreds()), 0, 0, 10, -2, 2);
    /* not proper: the count, entries that do not rise, name what is not allowed, not CDATA or required, a value too large, words of no use */
    for (size_t i = 0; i < sizeof damage / sizeof *damage; i++) {
        uint64_t kept = house_table[6626 + damage[i].word];
        house_table[6626 + damage[i].word] = damage[i].value;
        JUDGED(check(house_table, TABLE, doc, 12, 12, hundreds()), 13, 0);
        COUNTED(elements(house_table, TABLE, hundreds(), 0), 13, 0);
        house_table[6626 + damage[i].word] = kept;
    }
    for (size_t set = 2; set <= 5; set++) {
        house_table[2 + set] ^= 8;
        JUDGED(check(house_table, TABLE, doc, 12, 12, hundreds()), 13, 0);
        house_table[2 + set] ^= 8;
    }
    JUDGED(check(house_table, TABLE, doc, 12, 12, hundreds()), 0, 0);
}

/* ---- two tables: the small shade, and with (use, use, panel)? in place of (panel+, use*) */

#define SEQUENCE 4290
static uint64_t new_table[TABLE];
static uint32_t sequence[SEQUENCE + 1], sequence_due[SEQUENCE + 1];

static void comparisons(void) {
    static const uint8_t new_schema[] = {4, 0, 2, 6, 2, 0, 8, 0, 8, 6, 1, 0, 0, 0, 2, 2, 3, 7, 1, 1, 1, 0, 1, 0, 0, 1, 2, 2, 0};
    static const uint8_t small[] = {1, 0, 0, 0};
    uint64_t one[TABLE];
    for (size_t i = 0; i <= SEQUENCE; i++) sequence[i] = sequence_due[i] = FILLED;
    SAME("number", translate(new_schema, sizeof new_schema, new_table, TABLE), 0);
    SAME("number", translate(small, sizeof small, one, TABLE), 0);
    /* yes, and refusals: nothing is written */
    COMPARED(compare(table, TABLE, table, TABLE, 0, sequence, SEQUENCE), 0, 1, 0);
    COMPARED(compare(table, TABLE, new_table, TABLE, 3, sequence, SEQUENCE), 0, 1, 0);
    COMPARED(compare(table, TABLE - 1, new_table, TABLE, 0, sequence, SEQUENCE), 13, 0, 0);
    COMPARED(compare(table, TABLE, new_table, TABLE - 1, 0, sequence, SEQUENCE), 13, 0, 0);
    COMPARED(compare(NULL, 0, NULL, 0, 0, NULL, 0), 13, 0, 0);
    COMPARED(compare(table, TABLE, new_table, TABLE, 4, sequence, SEQUENCE), 6, 0, 0);
    COMPARED(compare(table, TABLE, one, TABLE, 1, sequence, SEQUENCE), 6, 0, 0);
    COMPARED(compare(one, TABLE, table, TABLE, 1, sequence, SEQUENCE), 6, 0, 0);
    COMPARED(compare(table, TABLE, new_table, TABLE, UINT32_MAX, NULL, 0), 6, 0, 0);
    COMPARED(compare(table, TABLE, new_table, TABLE, 2, NULL, 0), 16, 0, 0);
    COMPARED(compare(table, TABLE, new_table, TABLE, 0, sequence, SEQUENCE - 1), 5, 0, 0);
    COMPARED(compare(table, TABLE, table, TABLE, 0, NULL, 0), 5, 0, 0);
    /* no child at all */
    COMPARED(compare(new_table, TABLE, table, TABLE, 0, sequence, SEQUENCE), 0, 0, 0);
    COMPARED(compare(one, TABLE, table, TABLE, 0, sequence, SEQUENCE), 0, 0, 0);
    BYTES(sequence, sequence_due, sizeof sequence);
    /* a panel */
    COMPARED(compare(table, TABLE, new_table, TABLE, 0, sequence, SEQUENCE), 0, 0, 1);
    sequence_due[0] = 1;
    BYTES(sequence, sequence_due, sizeof sequence);
    /* use, use, panel: from what takes it to what does not */
    static const uint8_t opened[] = {4, 0, 2, 4, 3, 1, 8, 6, 1, 0, 0, 0, 2, 2, 3, 7, 1, 1, 1, 0, 1, 0, 0, 1, 2, 2, 0};
    static const uint8_t closed[] = {4, 0, 2, 4, 2, 0, 8, 8, 1, 0, 0, 0, 2, 2, 3, 7, 1, 1, 1, 0, 1, 0, 0, 1, 2, 2, 0};
    static uint64_t opened_table[TABLE], closed_table[TABLE];
    SAME("number", translate(opened, sizeof opened, opened_table, TABLE), 0);
    SAME("number", translate(closed, sizeof closed, closed_table, TABLE), 0);
    COMPARED(compare(new_table, TABLE, opened_table, TABLE, 0, sequence, SEQUENCE), 0, 1, 0);
    COMPARED(compare(new_table, TABLE, closed_table, TABLE, 0, sequence, SEQUENCE + 1), 0, 0, 3);
    sequence_due[0] = 3, sequence_due[1] = 3, sequence_due[2] = 1;
    BYTES(sequence, sequence_due, sizeof sequence);
    BYTES(table, before, sizeof table);
}

/* 257 edits of no operation */
static const uint32_t no_operations[3 * (MOST + 1)] = {0};

/* Lengths over 2^32: what is lent beyond the first page must not be touched. */
static int lengths(void) {
    uint32_t *tokens = (uint32_t *)reserve((OVER + 1) * sizeof *tokens, 1);
    uint32_t *back = (uint32_t *)reserve(OVER * sizeof *back, 1);
    uint8_t *bytes = (uint8_t *)reserve(OVER, 1);
    const uint64_t *words = (const uint64_t *)reserve((OVER + TABLE) * sizeof *words, 0);
    if (!tokens || !back || !bytes || !words) return 0;
    COUNTED(read_file(file, FILE_LENGTH, tokens, OVER), 0, SHADE);
    BYTES(tokens, shade, sizeof shade);
    COUNTED(write_file(shade, SHADE, bytes, OVER), 0, FILE_LENGTH);
    BYTES(bytes, file, FILE_LENGTH);
    COUNTED(write_file(tokens, OVER + 1, bytes, OVER), 5, 0);
    COUNTED(import(text_of(dtd), DTD, bytes, OVER), 0, SCHEMA);
    BYTES(bytes, schema, SCHEMA);
    COUNTED(list_names(text_of(dtd), DTD, bytes, OVER), 0, LIST);
    BYTES(bytes, name_list, LIST);
    COUNTED(import(bytes, OVER, bytes + LIST, 0), 14, 0);
    COUNTED(list_names(bytes, OVER, bytes + LIST, 0), 14, 0);
    SPOTTED(import_spot(bytes, OVER), 14, 0);
    SAME("number", translate(schema, SCHEMA, (uint64_t *)words, OVER + TABLE), 13);
    JUDGED(check(table, TABLE, tokens, OVER, SHADE, hundreds()), 0, 0);
    JUDGED(check(words, OVER + TABLE, tokens, OVER, SHADE, hundreds()), 13, 0);
    ANSWERED(edit(table, TABLE, tokens, OVER, SHADE, 2, 10, NULL, 0, back, OVER, hundreds()), 0, 0, 11, -4, 1);
    SAME("operation", back[0], 1);
    BYTES(back + 3, shade + 10, back[2] * sizeof *back);
    ANSWERED(edit(words, OVER + TABLE, tokens, OVER, 11, 2, 10, NULL, 0, back, OVER, hundreds()), 13, 0, 11, 0, 0);
    COMPARED(compare(words, OVER + TABLE, table, TABLE, 0, tokens, OVER), 13, 0, 0);
    COMPARED(compare(table, TABLE, words, OVER + TABLE, 0, tokens, OVER), 13, 0, 0);
    COMPARED(compare(table, TABLE, new_table, TABLE, 0, tokens, OVER), 0, 0, 1);
    uint32_t doc[PLACES];
    fill(doc, shade, SHADE);
    tokens[0] = 9;
    ANSWERED(edit(table, TABLE, doc, PLACES, SHADE, 2, 10, tokens, OVER, back, OVER, hundreds()), 4, 0, SHADE, 0, 0);
    memcpy(tokens, no_operations, sizeof no_operations);
    LISTED(list(table, TABLE, doc, PLACES, SHADE, tokens, OVER, hundreds()), 5, 0, SHADE, 0, 0, 0);
    GROUPED(group(table, TABLE, doc, PLACES, SHADE, tokens, OVER, back, OVER), 5, 0, SHADE, 0, 0);
    memcpy(tokens, shade, sizeof shade);
    GROUPED(group(table, TABLE, tokens, OVER, SHADE, step, STEP, back, OVER), 0, 0, 8, -7, 0);
    BYTES(tokens, back, (SHADE + PANEL) * sizeof *back);
    GROUPED(group(words, OVER + TABLE, tokens, OVER, 8, step, STEP, back, OVER), 13, 0, 8, 0, 0);
    memcpy(tokens, shade, sizeof shade);
    LISTED(list(table, TABLE, tokens, OVER, SHADE, step, STEP, hundreds()), 0, 0, 8, -7, 1, 3);
    LISTED(list(words, OVER + TABLE, tokens, OVER, 8, step, STEP, hundreds()), 13, 0, 8, 0, 0, 0);
    return 1;
}

int main(void) {
    readers();
    writers();
    importers();
    translators();
    checks();
    edits();
    children();
    steps_back();
    lists();
    counts();
    groups();
    fixed();
    comparisons();
    if (!lengths()) return 1;
    return told();
}
