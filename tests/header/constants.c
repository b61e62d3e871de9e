/* Uses every constant of the header against what the library does: with a wrong one, or two exchanged, an answer, a table or a document
 * is not as it should be. No number of the header is written out here. Ends with 1 if something differs. */
#include "compare.h"

#define S(name) SHRIKE_START_TOKEN(name)
#define E SHRIKE_END_TOKEN
#define T(number) SHRIKE_TEXT_TOKEN(number)
#define A(name) SHRIKE_ATTRIBUTE_TOKEN(name)
#define V(number) SHRIKE_VALUE_TOKEN(number)
#define NAME(element) (SHRIKE_NAMED + (element))
#define LENGTH(array) (sizeof(array) / sizeof *(array))

static uint64_t table[SHRIKE_TABLE_WORDS + 1];
static uint32_t numbers[2 * SHRIKE_MOST_TOKENS];
static uint8_t file[2 * SHRIKE_MOST_BYTES];

/* The answer to a schema, given as its numbers: they are written to a file as tokens are, and translated. */
static uint32_t schema(const uint32_t *given, size_t n) {
    shrike_count written = shrike_write(given, n, file, sizeof file);
    return written.number != SHRIKE_DONE ? written.number : shrike_translate(file, written.count, table, SHRIKE_TABLE_WORDS);
}

/* Counts that no edit here brings to an end of their range, and one place more. */
static int32_t counts[SHRIKE_COUNT_PLACES + 1];

static int32_t *hundreds(void) {
    for (size_t i = 0; i < LENGTH(counts); i++) counts[i] = 100;
    return counts;
}

/* The verdict on a document, by the last table. */
static shrike_verdict checked(const uint32_t *doc, size_t used) {
    return shrike_check(table, SHRIKE_TABLE_WORDS, doc, used, used, hundreds());
}

#define SCHEMA(answer, ...)                                         \
    do {                                                            \
        const uint32_t given[] = {__VA_ARGS__};                     \
        SAME("schema's answer", schema(given, LENGTH(given)), answer); \
    } while (0)

#define DOCUMENT(answer, place, ...)                        \
    do {                                                    \
        const uint32_t given[] = {__VA_ARGS__};             \
        JUDGED(checked(given, LENGTH(given)), answer, place); \
    } while (0)

static void versions(void) {
    uint32_t version = shrike_version();
    SAME("version", version, SHRIKE_VERSION);
    SAME("major", version / 1000000, SHRIKE_VERSION_MAJOR);
    SAME("minor", version / 1000 % 1000, SHRIKE_VERSION_MINOR);
    SAME("patch", version % 1000, SHRIKE_VERSION_PATCH);
    SAME("served by its own", shrike_serves(version), 1);
    SAME("served by the next patch", shrike_serves(version + 1), 1);
    SAME("served by the next minor", shrike_serves(version + 1000), 1);
    SAME("served by a minor before", shrike_serves(version - 1000), 0);
    SAME("served by the next major", shrike_serves(version + 1000000), 0);
}

/* Each answer has words of its own. */
static void words(void) {
    static const uint32_t answers[] = {SHRIKE_DONE,  SHRIKE_BROKEN,     SHRIKE_SCHEMA,  SHRIKE_AMBIGUOUS, SHRIKE_SHAPE,
                                       SHRIKE_ROOM,  SHRIKE_PLACE,      SHRIKE_NAME,    SHRIKE_ATTRIBUTES, SHRIKE_CONTENT,
                                       SHRIKE_ROOT,  SHRIKE_ID_TWICE,   SHRIKE_NO_ID,   SHRIKE_TABLE,     SHRIKE_DTD_TEXT,
                                       SHRIKE_COUNTS, SHRIKE_NOT_COMPARED, UINT32_MAX};
    for (size_t i = 0; i < LENGTH(answers); i++)
        for (size_t j = 0; j < i; j++) SAME("words alike", strcmp(shrike_words(answers[i]), shrike_words(answers[j])) == 0, 0);
}

static void kinds_of_elements(void) {
    SCHEMA(SHRIKE_DONE, 1, 0, SHRIKE_EMPTY, 0);
    DOCUMENT(SHRIKE_DONE, 0, S(0), E);
    DOCUMENT(SHRIKE_CONTENT, 1, S(0), T(9), E);
    SCHEMA(SHRIKE_DONE, 1, 0, SHRIKE_TEXT_ONLY, 0);
    DOCUMENT(SHRIKE_DONE, 0, S(0), T(9), E);
    DOCUMENT(SHRIKE_DONE, 0, S(0), E);
    DOCUMENT(SHRIKE_CONTENT, 2, S(0), T(9), T(9), E);
    SCHEMA(SHRIKE_DONE, 1, 0, SHRIKE_MODEL, 2, SHRIKE_OPTIONAL, NAME(0), 0);
    DOCUMENT(SHRIKE_DONE, 0, S(0), S(0), E, E);
    DOCUMENT(SHRIKE_CONTENT, 1, S(0), T(9), E);
}

/* A root whose model has n symbols, with empty elements 1 and 2: which of their runs it takes, as 1 for nothing, 2 for "1", 4 for "2",
 * 8 for "1 1", 16 for "1 2" and 32 for "2 1". */
static uint32_t taken(uint32_t n, uint32_t first, uint32_t second, uint32_t third) {
    static const uint32_t runs[][2] = {{0, 0}, {1, 0}, {2, 0}, {1, 1}, {1, 2}, {2, 1}};
    const uint32_t symbols[] = {first, second, third};
    uint32_t given[16] = {3, 0, SHRIKE_MODEL, n}, said = 0;
    for (uint32_t i = 0; i < n; i++) given[4 + i] = symbols[i];
    given[4 + n] = 0;
    for (uint32_t i = 5 + n; i < 9 + n; i += 2) given[i] = SHRIKE_EMPTY, given[i + 1] = 0;
    if (schema(given, 9 + n) != SHRIKE_DONE) return UINT32_MAX;
    for (size_t r = 0; r < LENGTH(runs); r++) {
        uint32_t doc[6] = {S(0)};
        size_t used = 1;
        for (size_t i = 0; i < 2; i++)
            if (runs[r][i] != 0) doc[used] = S(runs[r][i]), doc[used + 1] = E, used += 2;
        doc[used] = E;
        if (checked(doc, used + 1).number == SHRIKE_DONE) said |= 1u << r;
    }
    return said;
}

static void symbols(void) {
    SAME("name", taken(1, NAME(1), 0, 0), 2);
    SAME("name", taken(1, NAME(2), 0, 0), 4);
    SAME("sequence", taken(3, SHRIKE_SEQUENCE, NAME(1), NAME(2)), 16);
    SAME("choice", taken(3, SHRIKE_CHOICE, NAME(1), NAME(2)), 2 + 4);
    SAME("optional", taken(2, SHRIKE_OPTIONAL, NAME(1), 0), 1 + 2);
    SAME("zero or more", taken(2, SHRIKE_ZERO_OR_MORE, NAME(1), 0), 1 + 2 + 8);
    SAME("one or more", taken(2, SHRIKE_ONE_OR_MORE, NAME(1), 0), 2 + 8);
}

/* An attribute of a kind and a status: without it, twice with one value, and once with two. */
static void attribute(uint32_t kind, uint32_t status, uint32_t without, uint32_t twice, uint32_t two) {
    SCHEMA(SHRIKE_DONE, 2, 0, SHRIKE_MODEL, 2, SHRIKE_ZERO_OR_MORE, NAME(1), 0, SHRIKE_EMPTY, 1, 7, kind, status);
    DOCUMENT(without, without == SHRIKE_DONE ? 0 : 1, S(0), S(1), E, E);
    DOCUMENT(twice, twice == SHRIKE_DONE ? 0 : twice == SHRIKE_NO_ID ? 3 : 7, S(0), S(1), A(7), V(9), E, S(1), A(7), V(9), E, E);
    DOCUMENT(two, two == SHRIKE_NO_ID ? 3 : 1, S(0), S(1), A(7), V(9), V(9), E, E);
}

static void kinds_of_attributes(void) {
    attribute(SHRIKE_CDATA, SHRIKE_REQUIRED, SHRIKE_ATTRIBUTES, SHRIKE_DONE, SHRIKE_ATTRIBUTES);
    attribute(SHRIKE_ID, SHRIKE_IMPLIED, SHRIKE_DONE, SHRIKE_ID_TWICE, SHRIKE_ATTRIBUTES);
    attribute(SHRIKE_IDREF, SHRIKE_REQUIRED, SHRIKE_ATTRIBUTES, SHRIKE_NO_ID, SHRIKE_ATTRIBUTES);
    attribute(SHRIKE_IDREFS, SHRIKE_IMPLIED, SHRIKE_DONE, SHRIKE_NO_ID, SHRIKE_NO_ID);
    SCHEMA(SHRIKE_DONE, 1, 0, SHRIKE_EMPTY, 1, 7, SHRIKE_CDATA, SHRIKE_FIXED, 9);
    DOCUMENT(SHRIKE_DONE, 0, S(0), E);
    DOCUMENT(SHRIKE_DONE, 0, S(0), A(7), V(9), E);
    DOCUMENT(SHRIKE_ATTRIBUTES, 0, S(0), A(7), V(8), E);
    SCHEMA(SHRIKE_SCHEMA, 1, 0, SHRIKE_EMPTY, 1, 7, SHRIKE_ID, SHRIKE_FIXED, 9);
}

/* A list of numbers, made from its front. */
static size_t made;

static void begin(void) { made = 0; }

static void put(uint32_t number, size_t times) {
    for (size_t i = 0; i < times && made < LENGTH(numbers); i++) numbers[made++] = number;
}

static uint32_t with_elements(uint32_t n) {
    begin(), put(n, 1), put(0, 1);
    for (uint32_t i = 0; i < n; i++) put(SHRIKE_EMPTY, 1), put(0, 1);
    return schema(numbers, made);
}

static uint32_t with_symbols(uint32_t n) {
    begin(), put(1, 1), put(0, 1), put(SHRIKE_MODEL, 1), put(n, 1);
    put(SHRIKE_OPTIONAL, n - 1), put(NAME(0), 1), put(0, 1);
    return schema(numbers, made);
}

static uint32_t with_names(uint32_t n) {
    begin(), put(1, 1), put(0, 1), put(SHRIKE_MODEL, 1), put(2 * n - 1, 1);
    put(SHRIKE_SEQUENCE, n - 1), put(NAME(0), n), put(0, 1);
    return schema(numbers, made);
}

static uint32_t with_attributes(uint32_t n) {
    begin(), put(1, 1), put(0, 1), put(SHRIKE_EMPTY, 1), put(n, 1);
    for (uint32_t i = 0; i < n; i++) put(i, 1), put(SHRIKE_CDATA, 1), put(SHRIKE_IMPLIED, 1);
    return schema(numbers, made);
}

static uint32_t with_fixed(uint32_t n) {
    begin(), put(1, 1), put(0, 1), put(SHRIKE_EMPTY, 1), put(n, 1);
    for (uint32_t i = 0; i < n; i++) put(i, 1), put(SHRIKE_CDATA, 1), put(SHRIKE_FIXED, 1), put(100 + i, 1);
    return schema(numbers, made);
}

/* The limits of a schema: taken at the limit, and not past it. */
static void limits_of_schemas(void) {
    SAME("most elements", with_elements(SHRIKE_MOST_ELEMENTS), SHRIKE_DONE);
    SAME("one element more", with_elements(SHRIKE_MOST_ELEMENTS + 1), SHRIKE_SCHEMA);
    SAME("most symbols", with_symbols(SHRIKE_MOST_SYMBOLS), SHRIKE_DONE);
    SAME("one symbol more", with_symbols(SHRIKE_MOST_SYMBOLS + 1), SHRIKE_SCHEMA);
    SAME("most names", with_names(SHRIKE_MOST_NAMES), SHRIKE_DONE);
    SAME("one name more", with_names(SHRIKE_MOST_NAMES + 1), SHRIKE_SCHEMA);
    SAME("most attributes", with_attributes(SHRIKE_MOST_ATTRIBUTES), SHRIKE_DONE);
    SAME("one attribute more", with_attributes(SHRIKE_MOST_ATTRIBUTES + 1), SHRIKE_SCHEMA);
    SAME("one fixed attribute more", with_fixed(SHRIKE_MOST_FIXED + 1), SHRIKE_SCHEMA);
    SAME("most fixed attributes", with_fixed(SHRIKE_MOST_FIXED), SHRIKE_DONE);
    SAME("their count", table[SHRIKE_FIXED_COUNT_AT], SHRIKE_MOST_FIXED);
    for (uint32_t i = 0; i < SHRIKE_MOST_FIXED; i++) {
        const uint64_t entry[] = {0, i, 100 + i};
        BYTES(table + SHRIKE_FIXED_AT + i * SHRIKE_FIXED_WORDS, entry, sizeof entry);
    }
    SAME("words behind them", SHRIKE_FIXED_AT + SHRIKE_MOST_FIXED * SHRIKE_FIXED_WORDS, SHRIKE_TABLE_WORDS);
    SCHEMA(SHRIKE_DONE, 1, 0, SHRIKE_EMPTY, 1, SHRIKE_MOST_ATTRIBUTES - 1, SHRIKE_CDATA, SHRIKE_IMPLIED);
    SCHEMA(SHRIKE_SCHEMA, 1, 0, SHRIKE_EMPTY, 1, SHRIKE_MOST_ATTRIBUTES, SHRIKE_CDATA, SHRIKE_IMPLIED);
}

/* The answer to a document of elements inside each other, the innermost with others beside each other. */
static uint32_t nested(size_t deep, size_t beside) {
    begin(), put(S(0), deep);
    for (size_t i = 0; i < beside && made < LENGTH(numbers); i++) put(S(0), 1), put(E, 1);
    put(E, deep);
    return checked(numbers, made).number;
}

/* The limits of a document and of its file. */
static void limits_of_documents(void) {
    SCHEMA(SHRIKE_DONE, 1, 0, SHRIKE_MODEL, 2, SHRIKE_ZERO_OR_MORE, NAME(0), 0);
    SAME("most tokens", nested(1, SHRIKE_MOST_TOKENS / 2 - 1), SHRIKE_DONE);
    SAME("two tokens more", nested(1, SHRIKE_MOST_TOKENS / 2), SHRIKE_SHAPE);
    SAME("most deep", nested(SHRIKE_MOST_DEEP, 0), SHRIKE_DONE);
    SAME("one deeper", nested(SHRIKE_MOST_DEEP + 1, 0), SHRIKE_SHAPE);
    SCHEMA(SHRIKE_DONE, 1, 0, SHRIKE_TEXT_ONLY, 0);
    DOCUMENT(SHRIKE_DONE, 0, S(0), T(SHRIKE_MOST_NUMBER), E);
    DOCUMENT(SHRIKE_SHAPE, 0, S(0), T(SHRIKE_MOST_NUMBER + 1), E);

    const uint32_t past = SHRIKE_MOST_VALUE + 1;
    COUNTED(shrike_write(&past, 1, file, sizeof file), SHRIKE_SHAPE, 0);
    begin(), put(SHRIKE_MOST_VALUE, SHRIKE_MOST_TOKENS + 1);
    COUNTED(shrike_write(numbers, SHRIKE_MOST_TOKENS + 1, file, sizeof file), SHRIKE_ROOM, 0);
    COUNTED(shrike_write(numbers, SHRIKE_MOST_TOKENS, file, SHRIKE_MOST_BYTES - 1), SHRIKE_ROOM, 0);
    COUNTED(shrike_write(numbers, SHRIKE_MOST_TOKENS, file, SHRIKE_MOST_BYTES), SHRIKE_DONE, SHRIKE_MOST_BYTES);
    begin(), put(0, SHRIKE_MOST_TOKENS + 1);
    COUNTED(shrike_read(file, SHRIKE_MOST_BYTES, numbers, SHRIKE_MOST_TOKENS + 1), SHRIKE_DONE, SHRIKE_MOST_TOKENS);
    SAME("last number", numbers[SHRIKE_MOST_TOKENS - 1], SHRIKE_MOST_VALUE);
    memset(file, 0, sizeof file);
    COUNTED(shrike_read(file, SHRIKE_MOST_TOKENS + 1, numbers, SHRIKE_MOST_TOKENS + 1), SHRIKE_ROOM, 0);
    COUNTED(shrike_read(file, SHRIKE_MOST_TOKENS, numbers, SHRIKE_MOST_TOKENS), SHRIKE_DONE, SHRIKE_MOST_TOKENS);
}

/* Element e has the model ((1 | 2), 3?, (4 | 5))? and attributes e + 8 to e + 11. */
static void put_element(uint32_t e) {
    const uint32_t element[] = {SHRIKE_MODEL, 11, SHRIKE_OPTIONAL, SHRIKE_SEQUENCE, SHRIKE_CHOICE, NAME(1), NAME(2), SHRIKE_SEQUENCE,
                                SHRIKE_OPTIONAL, NAME(3), SHRIKE_CHOICE, NAME(4), NAME(5), 4,
                                e + 8, SHRIKE_CDATA, SHRIKE_REQUIRED, e + 9, SHRIKE_ID, SHRIKE_IMPLIED,
                                e + 10, SHRIKE_IDREF, SHRIKE_REQUIRED, e + 11, SHRIKE_IDREFS, SHRIKE_IMPLIED};
    for (size_t i = 0; i < LENGTH(element); i++) put(element[i], 1);
}

/* Its block: no two places hold the same, and no two elements. */
static void block(uint32_t e) {
    static const uint64_t names[] = {1, 2, 3, 4, 5, 0}, follows[] = {28, 28, 24, 0, 0, 0};
    const uint64_t *at = table + SHRIKE_BLOCKS_AT + e * SHRIKE_BLOCK_WORDS;
    SAME("kind", at[SHRIKE_KIND_AT], SHRIKE_MODEL);
    SAME("allowed", at[SHRIKE_ALLOWED_AT], UINT64_C(15) << (e + 8));
    SAME("required", at[SHRIKE_REQUIRED_AT], UINT64_C(5) << (e + 8));
    SAME("ID", at[SHRIKE_ID_AT], UINT64_C(2) << (e + 8));
    SAME("IDREF", at[SHRIKE_IDREF_AT], UINT64_C(4) << (e + 8));
    SAME("IDREFS", at[SHRIKE_IDREFS_AT], UINT64_C(8) << (e + 8));
    SAME("count", at[SHRIKE_COUNT_AT], 5);
    SAME("no child", at[SHRIKE_NO_CHILD_AT], 1);
    SAME("first", at[SHRIKE_FIRST_AT], 3);
    SAME("last", at[SHRIKE_LAST_AT], 24);
    BYTES(at + SHRIKE_NAMES_AT, names, sizeof names);
    BYTES(at + SHRIKE_FOLLOW_AT, follows, sizeof follows);
}

static void tables(void) {
    begin(), put(SHRIKE_MOST_ELEMENTS, 1), put(0, 1);
    for (uint32_t e = 0; e < SHRIKE_MOST_ELEMENTS; e++) put_element(e);
    shrike_count written = shrike_write(numbers, made, file, sizeof file);
    SAME("too few words", shrike_translate(file, written.count, table, SHRIKE_TABLE_WORDS - 1), SHRIKE_TABLE);
    SAME("too many words", shrike_translate(file, written.count, table, SHRIKE_TABLE_WORDS + 1), SHRIKE_TABLE);
    SAME("as many words", shrike_translate(file, written.count, table, SHRIKE_TABLE_WORDS), SHRIKE_DONE);
    for (uint32_t e = 0; e < SHRIKE_MOST_ELEMENTS; e++) block(e);
}

/* ---- the small shade: answers and operations */

static const uint32_t shade[] = {S(0), A(0), V(7), S(1), A(1), V(20), S(2), T(30), E, E, S(3), A(2), V(20), E, E};
static const uint32_t panel[] = {S(1), A(1), V(21), E}, row[] = {T(31)}, title[] = {A(0), V(8)}, label[] = {A(1)};

static uint32_t back[SHRIKE_MOST_BACK];

/* Tries an edit of a document, of the shade's length, in a fresh buffer. */
static shrike_answer edited(const uint32_t *doc, uint32_t operation, uint64_t place, const uint32_t *piece, size_t n) {
    begin();
    for (size_t i = 0; i < LENGTH(shade); i++) put(doc[i], 1);
    return shrike_edit(table, SHRIKE_TABLE_WORDS, numbers, SHRIKE_MOST_TOKENS, LENGTH(shade), operation, place, piece, n, back,
                       SHRIKE_MOST_BACK, hundreds());
}

static void operations(void) {
    enum { LENGTH_NOW = 15 };
    SCHEMA(SHRIKE_DONE, 4, 0, SHRIKE_MODEL, 5, SHRIKE_SEQUENCE, SHRIKE_ONE_OR_MORE, NAME(1), SHRIKE_ZERO_OR_MORE, NAME(3), 1, 0,
           SHRIKE_CDATA, SHRIKE_REQUIRED, SHRIKE_MODEL, 2, SHRIKE_ZERO_OR_MORE, NAME(2), 1, 1, SHRIKE_ID, SHRIKE_REQUIRED,
           SHRIKE_TEXT_ONLY, 0, SHRIKE_EMPTY, 1, 2, SHRIKE_IDREF, SHRIKE_REQUIRED);
    JUDGED(checked(shade, LENGTH_NOW), SHRIKE_DONE, 0);
    ANSWERED(edited(shade, SHRIKE_INSERT, 10, panel, LENGTH(panel)), SHRIKE_DONE, 0, LENGTH_NOW + 4, 4, 3);
    SAME("taken back", back[0], SHRIKE_REMOVE);
    ANSWERED(edited(shade, SHRIKE_REMOVE, 10, NULL, 0), SHRIKE_DONE, 0, LENGTH_NOW - 4, -4, 1);
    SAME("taken back", back[0], SHRIKE_INSERT);
    ANSWERED(edited(shade, SHRIKE_REPLACE, 7, row, LENGTH(row)), SHRIKE_DONE, 0, LENGTH_NOW, 0, 1);
    SAME("taken back", back[0], SHRIKE_REPLACE);
    BYTES(numbers + 7, row, sizeof row);
    ANSWERED(edited(shade, SHRIKE_SET, 0, title, LENGTH(title)), SHRIKE_DONE, 0, LENGTH_NOW, 0, 2);
    SAME("taken back", back[0], SHRIKE_SET);
    BYTES(numbers + 1, title, sizeof title);
    ANSWERED(edited(shade, SHRIKE_DROP, 3, label, LENGTH(label)), SHRIKE_ATTRIBUTES, 3, LENGTH_NOW, 0, 0);
    ANSWERED(edited(shade, SHRIKE_INSERT, 1, panel, LENGTH(panel)), SHRIKE_PLACE, 0, LENGTH_NOW, 0, 0);
    ANSWERED(edited(shade, SHRIKE_INSERT, 10, panel, LENGTH(panel) - 1), SHRIKE_SHAPE, 0, LENGTH_NOW, 0, 0);
    ANSWERED(edited(shade, SHRIKE_REPLACE, 3, panel, LENGTH(panel)), SHRIKE_NO_ID, 9, LENGTH_NOW, 0, 0);
    ANSWERED(edited(shade, SHRIKE_INSERT, 10, shade + 3, 7), SHRIKE_ID_TWICE, 12, LENGTH_NOW, 0, 0);

    /* the panel's element is none of the schema's four */
    static const uint32_t unnamed[] = {S(0), A(0), V(7), S(4), A(1), V(20), S(2), T(30), E, E, S(3), A(2), V(20), E, E};
    ANSWERED(edited(unnamed, SHRIKE_REMOVE, 6, NULL, 0), SHRIKE_NAME, 3, LENGTH_NOW, 0, 0);
    DOCUMENT(SHRIKE_ROOT, 0, S(1), A(1), V(20), E);
    JUDGED(shrike_check(table, SHRIKE_TABLE_WORDS - 1, shade, LENGTH_NOW, LENGTH_NOW, hundreds()), SHRIKE_TABLE, 0);
}

/* The counts of the last document that was checked. */
static int32_t *true_counts(void) { return counts; }

/* The longest step back: from a root that takes the place of as many tokens as a document can have. */
static shrike_answer all_replaced(size_t back_room) {
    const uint32_t root[] = {S(0), E};
    nested(1, SHRIKE_MOST_TOKENS / 2 - 1);
    return shrike_edit(table, SHRIKE_TABLE_WORDS, numbers, made, made, SHRIKE_REPLACE, 0, root, 2, back, back_room, true_counts());
}

static void steps_back(void) {
    SCHEMA(SHRIKE_DONE, 1, 0, SHRIKE_MODEL, 2, SHRIKE_ZERO_OR_MORE, NAME(0), 0);
    ANSWERED(all_replaced(SHRIKE_MOST_BACK - 1), SHRIKE_ROOM, 0, SHRIKE_MOST_TOKENS, 0, 0);
    ANSWERED(all_replaced(SHRIKE_MOST_BACK), SHRIKE_DONE, 0, 2, 2 - SHRIKE_MOST_TOKENS, 0);
    SAME("tokens that went", back[2], SHRIKE_MOST_TOKENS);
}

/* The answer to a list of so many edits, each of which sets the title. */
static shrike_listed titles(size_t edits) {
    static uint32_t doc[LENGTH(shade)];
    memcpy(doc, shade, sizeof shade);
    begin();
    for (size_t i = 0; i < edits; i++) {
        put(SHRIKE_SET, 1), put(0, 1), put(LENGTH(title), 1);
        for (size_t j = 0; j < LENGTH(title); j++) put(title[j], 1);
    }
    return shrike_list(table, SHRIKE_TABLE_WORDS, doc, LENGTH(doc), LENGTH(doc), numbers, made, hundreds());
}

static void lists(void) {
    LISTED(titles(SHRIKE_MOST_EDITS), SHRIKE_DONE, 0, LENGTH(shade), 0, 2, SHRIKE_MOST_EDITS);
    LISTED(titles(SHRIKE_MOST_EDITS + 1), SHRIKE_ROOM, 0, LENGTH(shade), 0, 0, 0);
    LISTED(titles(0), SHRIKE_SHAPE, 0, LENGTH(shade), 0, 0, 0);
}

/* The answer to a group, worked on the second half of a buffer. */
static shrike_grouped renamed(const uint32_t *list, size_t n) {
    static uint32_t both[2 * LENGTH(shade)];
    memcpy(both, shade, sizeof shade);
    return shrike_group(table, SHRIKE_TABLE_WORDS, both, LENGTH(shade), LENGTH(shade), list, n, both + LENGTH(shade), LENGTH(shade));
}

static void groups(void) {
    static const uint32_t rename[] = {SHRIKE_SET, 3, 2, A(1), V(21), SHRIKE_SET, 10, 2, A(2), V(21), SHRIKE_REMOVE, 0, 0};
    GROUPED(renamed(rename, 5), SHRIKE_NO_ID, 12, LENGTH(shade), 0, 0);
    GROUPED(renamed(rename, 10), SHRIKE_DONE, 0, LENGTH(shade), 0, 0);
    GROUPED(renamed(rename, 13), SHRIKE_PLACE, 0, LENGTH(shade), 0, 3);
    titles(SHRIKE_MOST_EDITS);
    GROUPED(renamed(numbers, made), SHRIKE_DONE, 0, LENGTH(shade), 0, 0);
    titles(SHRIKE_MOST_EDITS + 1);
    GROUPED(renamed(numbers, made), SHRIKE_ROOM, 0, LENGTH(shade), 0, 0);
}

/* A check writes as many counts as there are, and no more; the last one is asked for. */
static void kept_counts(void) {
    const uint32_t last = SHRIKE_COUNT_PLACES - 1;
    begin(), put(SHRIKE_COUNT_PLACES, 1), put(last, 1);
    for (uint32_t i = 0; i <= last; i++) put(SHRIKE_EMPTY, 1), put(0, 1);
    SAME("as many elements as counts", schema(numbers, made), SHRIKE_DONE);
    DOCUMENT(SHRIKE_DONE, 0, S(last), E);
    for (uint32_t i = 0; i < last; i++) SAME("count", (uint64_t)counts[i], 0);
    SAME("last count", (uint64_t)counts[last], 1);
    SAME("behind the counts", (uint64_t)counts[SHRIKE_COUNT_PLACES], 100);
    COUNTED(shrike_elements(table, SHRIKE_TABLE_WORDS, counts, last), SHRIKE_DONE, 1);
    counts[last] = -1;
    COUNTED(shrike_elements(table, SHRIKE_TABLE_WORDS, counts, 0), SHRIKE_COUNTS, 0);
}

/* The answers that nothing above has. */
static void answers(void) {
    static const uint8_t broken[] = {128, 0};
    COUNTED(shrike_read(broken, sizeof broken, numbers, SHRIKE_MOST_TOKENS), SHRIKE_BROKEN, 0);
    SCHEMA(SHRIKE_AMBIGUOUS, 1, 0, SHRIKE_MODEL, 4, SHRIKE_SEQUENCE, SHRIKE_OPTIONAL, NAME(0), NAME(0), 0);
}

/* ---- DTD texts */

static char text[1 << 18];
static size_t written;

static void say(const char *words) {
    for (size_t i = 0; words[i] != 0 && written < sizeof text; i++) text[written++] = words[i];
}

/* A letter and two digits: a name for a number below 100. */
static void say_name(const char *letter, uint32_t number) {
    const char digits[] = {(char)('0' + number / 10 % 10), (char)('0' + number % 10), 0};
    say(letter), say(digits);
}

/* Elements, each of a model of many symbols: the first element, optional, in brackets that are optional; and with attributes, the same for
 * all. */
static void say_elements(uint32_t elements, uint32_t symbols, uint32_t attributes) {
    for (uint32_t e = 0; e < elements; e++) {
        say("<!ELEMENT "), say_name("e", e), say(" (");
        for (uint32_t i = 2; i < symbols; i++) say("(");
        say("e00");
        for (uint32_t i = 1; i < symbols; i++) say(i == 1 ? "?" : ")?");
        say(")><!ATTLIST "), say_name("e", e);
        for (uint32_t a = 0; a < attributes; a++) say_name(" a", a), say(" CDATA #IMPLIED");
        say(">");
    }
}

static shrike_count imported(size_t room) { return shrike_import((const uint8_t *)text, written, file, room); }

static uint32_t with_text(uint32_t elements, uint32_t symbols, uint32_t attributes) {
    written = 0, say_elements(elements, symbols, attributes);
    return imported(sizeof file).number;
}

static void texts(void) {
    SAME("one element more in a text", with_text(SHRIKE_MOST_ELEMENTS + 1, 1, 0), SHRIKE_SCHEMA);
    SAME("one symbol more in a text", with_text(1, SHRIKE_MOST_SYMBOLS + 1, 0), SHRIKE_SCHEMA);
    SAME("one attribute more in a text", with_text(1, 1, SHRIKE_MOST_ATTRIBUTES + 1), SHRIKE_SCHEMA);
    SAME("an element that is not declared", with_text(0, 1, 0), SHRIKE_DTD_TEXT);
    SAME("the largest text", with_text(SHRIKE_MOST_ELEMENTS, SHRIKE_MOST_SYMBOLS, SHRIKE_MOST_ATTRIBUTES), SHRIKE_DONE);
    COUNTED(imported(SHRIKE_MOST_SCHEMA_FILE), SHRIKE_DONE, SHRIKE_MOST_SCHEMA_FILE);
    COUNTED(imported(SHRIKE_MOST_SCHEMA_FILE - 1), SHRIKE_ROOM, 0);
    SAME("its table", shrike_translate(file, SHRIKE_MOST_SCHEMA_FILE, table, SHRIKE_TABLE_WORDS), SHRIKE_DONE);
    say("?");
    SPOTTED(shrike_import_spot((const uint8_t *)text, written), SHRIKE_DTD_TEXT, written - 1);
}

/* An element compared with itself: an empty one, by the last table. */
static shrike_compared compared_with_itself(uint32_t element, size_t room) {
    static uint32_t sequence[2 * SHRIKE_SEQUENCE_PLACES];
    return shrike_compare(table, SHRIKE_TABLE_WORDS, table, SHRIKE_TABLE_WORDS, element, sequence, room);
}

static void comparisons(void) {
    SCHEMA(SHRIKE_DONE, 2, 0, SHRIKE_EMPTY, 0, SHRIKE_TEXT_ONLY, 0);
    COMPARED(compared_with_itself(0, SHRIKE_SEQUENCE_PLACES), SHRIKE_DONE, 1, 0);
    COMPARED(compared_with_itself(0, SHRIKE_SEQUENCE_PLACES - 1), SHRIKE_ROOM, 0, 0);
    COMPARED(compared_with_itself(1, SHRIKE_SEQUENCE_PLACES), SHRIKE_NOT_COMPARED, 0, 0);
    COMPARED(compared_with_itself(2, SHRIKE_SEQUENCE_PLACES), SHRIKE_PLACE, 0, 0);
}

int main(void) {
    versions();
    words();
    kinds_of_elements();
    symbols();
    kinds_of_attributes();
    limits_of_schemas();
    limits_of_documents();
    tables();
    operations();
    lists();
    groups();
    kept_counts();
    steps_back();
    answers();
    texts();
    comparisons();
    return told();
}
