/* A host in C that is run before a release: which of the old patterns would the new schema not take? It compares two schema files or two DTD
 * texts, element by element, and says of each what is the shortest sequence of children that would be lost.
 *
 *     cc -Iinclude -o release examples/c/release.c target/host/libshrikemuff.a
 *     ./release examples/release/old.dat examples/release/new.dat examples/release/names.txt
 *     ./release examples/release/old.dtd examples/release/new.dtd
 *
 * Schema files have numbers, which mean the same in both; the names, where a file of them is given, stand for them: each is ended by a line
 * feed, those of the elements first, by number. DTD texts (.dtd) have names: an element is the one of that name in both, wherever it is
 * declared, and the new schema is numbered again as the old one is.
 *
 * Ends with 0 if nothing would be lost, with 1 if something would be or an element is gone, and with 2 if nothing can be said: the library, a
 * file, a text or a schema is refused, or two texts have over 48 elements between them. */
#include "shrikemuff.h"

#include <stdio.h>
#include <string.h>

enum { ELEMENTS = SHRIKE_MOST_ELEMENTS, NONE = ELEMENTS };

/* A file's bytes; a longer file is not read. */
struct bytes {
    size_t length;
    uint8_t at[65536];
};

/* A schema's file, the names of its elements (and, behind them, of its attributes), and its table. */
struct schema {
    struct bytes file, names;
    uint64_t table[SHRIKE_TABLE_WORDS];
};

static struct schema old_one, new_one;
static int gone[ELEMENTS];
static uint32_t sequence[SHRIKE_SEQUENCE_PLACES];

static int load(const char *path, struct bytes *b) {
    FILE *f = fopen(path, "rb");
    int good = 0;
    if (f != NULL) {
        b->length = fread(b->at, 1, sizeof b->at, f);
        good = getc(f) == EOF && !ferror(f);
        fclose(f);
    }
    if (!good) printf("%s: not to be read\n", path);
    return good;
}

/* The schema file and the names of a DTD's text; or what is wrong with it, with line and column. */
static int imported(const char *path, struct schema *s) {
    static struct bytes text;
    if (!load(path, &text)) return 0;
    shrike_count file = shrike_import(text.at, text.length, s->file.at, sizeof s->file.at);
    shrike_count names = shrike_names(text.at, text.length, s->names.at, sizeof s->names.at);
    s->file.length = file.count, s->names.length = names.count;
    if (file.number == SHRIKE_DONE && names.number == SHRIKE_DONE) return 1;
    shrike_spot spot = shrike_import_spot(text.at, text.length);
    unsigned line = 1, column = 1;
    for (size_t i = 0; i < spot.offset; i++) {
        column++;
        if (text.at[i] == '\n') line++, column = 1;
    }
    printf("%s:%u:%u: refused, %s\n", path, line, column, shrike_words(file.number));
    return 0;
}

static int translated(const char *path, struct schema *s) {
    uint32_t number = shrike_translate(s->file.at, s->file.length, s->table, SHRIKE_TABLE_WORDS);
    if (number != SHRIKE_DONE) printf("%s: refused, %s\n", path, shrike_words(number));
    return number == SHRIKE_DONE;
}

/* The name of a number, without its end; NULL if there is none. */
static const char *name_of(const struct bytes *names, uint32_t number, size_t *length) {
    size_t at = 0, end;
    for (uint32_t line = 0; at < names->length; line++, at = end + 1) {
        for (end = at; end < names->length && names->at[end] != '\n'; end++) continue;
        if (line == number && end < names->length) return *length = end - at, (const char *)names->at + at;
    }
    return NULL;
}

/* ---- the new schema, numbered as the old one is */

/* The next number of a file that the library wrote. */
static uint32_t next(const struct bytes *b, size_t *at) {
    uint32_t value = 0;
    for (int shift = 0;; shift += 7) {
        uint8_t byte = b->at[(*at)++];
        value |= (uint32_t)(byte & 127) << shift;
        if (byte < 128) return value;
    }
}

static void put(struct bytes *b, uint32_t value) {
    for (; value >= 128; value >>= 7) b->at[b->length++] = (uint8_t)(value | 128);
    b->at[b->length++] = (uint8_t)value;
}

/* The old number of an element that is called so; NONE if the old schema has none. */
static uint32_t old_number(const char *name, size_t length, uint32_t elements) {
    for (uint32_t e = 0; e < elements; e++) {
        size_t n = 0;
        const char *other = name_of(&old_one.names, e, &n);
        if (n == length && memcmp(other, name, n) == 0) return e;
    }
    return NONE;
}

/* Copies what is said of one element, its symbols by the new numbers of the elements; without attributes, which are not compared. */
static void put_element(struct bytes *to, const struct bytes *from, size_t *at, const uint32_t *number) {
    uint32_t kind = next(from, at);
    put(to, kind);
    uint32_t symbols = kind == SHRIKE_MODEL ? next(from, at) : 0;
    if (kind == SHRIKE_MODEL) put(to, symbols);
    while (symbols-- > 0) {
        uint32_t symbol = next(from, at);
        put(to, symbol < SHRIKE_NAMED ? symbol : SHRIKE_NAMED + number[symbol - SHRIKE_NAMED]);
    }
    put(to, 0);
    for (uint32_t numbers = 3 * next(from, at); numbers > 0; numbers--) next(from, at);
}

/* Numbers the new schema as the old one is, new elements behind. An element that is gone stands as an EMPTY one that nothing names. */
static int numbered(void) {
    static struct bytes parts[ELEMENTS], file;
    uint32_t number[ELEMENTS], elements = (uint32_t)old_one.table[0], all = elements;
    size_t at = 0;
    uint32_t count = next(&new_one.file, &at), root = next(&new_one.file, &at);
    for (uint32_t e = 0; e < elements; e++) gone[e] = 1;
    for (uint32_t e = 0; e < count; e++) {
        size_t length = 0;
        const char *name = name_of(&new_one.names, e, &length);
        number[e] = old_number(name, length, elements);
        if (number[e] == NONE) number[e] = all++;
        else gone[number[e]] = 0;
        if (all > ELEMENTS) return 0;
    }
    for (uint32_t e = 0; e < count; e++) put_element(&parts[number[e]], &new_one.file, &at, number);
    put(&file, all), put(&file, number[root]);
    for (uint32_t e = 0; e < all; e++) {
        if (parts[e].length == 0) put(&parts[e], SHRIKE_EMPTY), put(&parts[e], 0);
        memcpy(file.at + file.length, parts[e].at, parts[e].length);
        file.length += parts[e].length;
    }
    new_one.file = file;
    return 1;
}

/* Both schemas of two DTD texts. Each is judged by its own numbers first. */
static int from_texts(const char *old_path, const char *new_path) {
    if (!imported(old_path, &old_one) || !translated(old_path, &old_one)) return 0;
    if (!imported(new_path, &new_one) || !translated(new_path, &new_one)) return 0;
    if (numbered()) return translated(new_path, &new_one);
    printf("over %d elements in the two texts together\n", ELEMENTS);
    return 0;
}

/* ---- what is lost */

/* Prints an element's name, or its number if there is no name for it. */
static void print_element(uint32_t element) {
    size_t length = 0;
    const char *name = name_of(&old_one.names, element, &length);
    if (name != NULL) printf("%.*s", (int)length, name);
    else printf("%u", (unsigned)element);
}

/* Says what an element loses. Answers 1 if it loses something. */
static int compared(uint32_t element) {
    shrike_compared r = shrike_compare(old_one.table, SHRIKE_TABLE_WORDS, new_one.table, SHRIKE_TABLE_WORDS, element, sequence,
                                       SHRIKE_SEQUENCE_PLACES);
    print_element(element);
    if (gone[element] || r.number == SHRIKE_PLACE) {
        printf(": gone\n");
        return 1;
    }
    if (r.number != SHRIKE_DONE) {
        printf(": %s\n", shrike_words(r.number));
        return r.number != SHRIKE_NOT_COMPARED;
    }
    if (r.takes_all) {
        printf(": takes all\n");
        return 0;
    }
    printf(": loses%s", r.length == 0 ? " no child at all" : "");
    for (uint32_t i = 0; i < r.length; i++) {
        printf(i == 0 ? " " : ", ");
        print_element(sequence[i]);
    }
    printf("\n");
    return 1;
}

static int is_text(const char *path) {
    size_t length = strlen(path);
    return length > 4 && strcmp(path + length - 4, ".dtd") == 0;
}

int main(int argc, char **argv) {
    if ((argc != 3 && argc != 4) || is_text(argv[1]) != is_text(argv[2]) || (is_text(argv[1]) && argc == 4)) {
        fprintf(stderr, "usage: release OLD NEW [NAMES]\n       release OLD.dtd NEW.dtd\n");
        return 2;
    }
    uint32_t version = shrike_version();
    if (!shrike_serves(version)) {
        printf("library: refused, version %u\n", (unsigned)version);
        return 2;
    }
    if (is_text(argv[1])) {
        if (!from_texts(argv[1], argv[2])) return 2;
    } else {
        if (!load(argv[1], &old_one.file) || !translated(argv[1], &old_one)) return 2;
        if (!load(argv[2], &new_one.file) || !translated(argv[2], &new_one)) return 2;
        if (argc == 4 && !load(argv[3], &old_one.names)) return 2;
    }
    int lost = 0;
    for (uint32_t element = 0; element < old_one.table[0]; element++) lost |= compared(element);
    return lost;
}
