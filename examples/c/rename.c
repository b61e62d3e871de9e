/* A host in C that renames a panel: in the document of a folder, an ID and all that refers to it get another number. Each step alone is
 * refused, since it leaves a reference to no ID; all of them as one group are done. It says in words what comes of each step, on the document
 * as it was, and of the group, and then checks the document, which writes its counts anew.
 *
 *     cc -Iinclude -o rename examples/c/rename.c target/host/libshrikemuff.a
 *     ./rename samples/small-shade 20 21
 *
 * Ends with 0 if the group is done, and with 1 if the library, a file, the schema, the document or the group is refused. */
#include "shrikemuff.h"

#include <stdio.h>
#include <stdlib.h>
#include <string.h>

static uint64_t table[SHRIKE_TABLE_WORDS], used;
static uint32_t doc[SHRIKE_MOST_TOKENS];
static int32_t counts[SHRIKE_COUNT_PLACES];

/* The steps as a list. A value that is set anew stands in the document with its attribute, and takes three numbers more here. */
static uint32_t list[4 * SHRIKE_MOST_TOKENS];
static size_t length;
static unsigned steps;

/* Loads FOLDER/NAME: how many bytes, or -1. A longer file is not read. */
static long load(const char *folder, const char *name, uint8_t *bytes, size_t most) {
    char path[4096];
    int fits = snprintf(path, sizeof path, "%s/%s", folder, name) < (int)sizeof path;
    FILE *f = fits ? fopen(path, "rb") : NULL;
    long n = -1;
    if (f != NULL) {
        size_t got = fread(bytes, 1, most, f);
        if (getc(f) == EOF && !ferror(f)) n = (long)got;
        fclose(f);
    }
    if (n < 0) printf("%s: not to be read\n", name);
    return n;
}

/* Says that something is refused. */
static void refused(const char *what, uint32_t number, uint32_t place) {
    printf("%s: refused, %s", what, shrike_words(number));
    if (number >= SHRIKE_NAME && number <= SHRIKE_NO_ID) printf(" at %u", (unsigned)place);
}

/* Whether an attribute of an element is an ID or refers to one: it is in one of three sets of the element's block in the table. */
static int is_key(uint32_t element, uint32_t attribute) {
    const uint64_t *block = table + SHRIKE_BLOCKS_AT + element * SHRIKE_BLOCK_WORDS;
    uint64_t keys = block[SHRIKE_ID_AT] | block[SHRIKE_IDREF_AT] | block[SHRIKE_IDREFS_AT];
    return attribute < SHRIKE_MOST_ATTRIBUTES && (keys >> attribute & 1) == 1;
}

/* Writes the steps of a rename: each sets an attribute to the values that it has, with `to` for `from`. Nothing gets longer: places stay. */
static void rename_steps(uint32_t from, uint32_t to) {
    uint64_t start = 0;
    for (uint64_t at = 0; at < used; at++) {
        uint32_t *step = list + length, n = 0, found = 0;
        if (SHRIKE_SORT(doc[at]) == SHRIKE_START) start = at;
        if (SHRIKE_SORT(doc[at]) != SHRIKE_ATTRIBUTE || !is_key(SHRIKE_NUMBER(doc[start]), SHRIKE_NUMBER(doc[at]))) continue;
        do {
            int is_it = n > 0 && SHRIKE_NUMBER(doc[at + n]) == from;
            step[3 + n] = is_it ? SHRIKE_VALUE_TOKEN(to) : doc[at + n];
            found += (uint32_t)is_it;
            n++;
        } while (SHRIKE_SORT(doc[at + n]) == SHRIKE_VALUE);
        if (found == 0) continue;
        step[0] = SHRIKE_SET, step[1] = (uint32_t)start, step[2] = n;
        length += 3 + n;
        steps++;
    }
}

/* Checks the document, and says what comes of it: whether it is valid. */
static int checked(void) {
    shrike_verdict verdict = shrike_check(table, SHRIKE_TABLE_WORDS, doc, SHRIKE_MOST_TOKENS, used, counts);
    if (verdict.number == SHRIKE_DONE)
        printf("check: valid");
    else
        refused("check", verdict.number, verdict.place);
    printf(", %llu tokens\n", (unsigned long long)used);
    return verdict.number == SHRIKE_DONE;
}

/* Makes each step alone, as a group of one, on a copy of the document, and says what comes of it. */
static void each_alone(void) {
    static uint32_t copy[SHRIKE_MOST_TOKENS], second[SHRIKE_MOST_TOKENS];
    for (size_t at = 0; at < length; at += 3 + list[at + 2]) {
        char said[64];
        memcpy(copy, doc, sizeof doc);
        shrike_grouped r =
            shrike_group(table, SHRIKE_TABLE_WORDS, copy, SHRIKE_MOST_TOKENS, used, list + at, 3 + list[at + 2], second, SHRIKE_MOST_TOKENS);
        snprintf(said, sizeof said, "set at %u alone", (unsigned)list[at + 1]);
        if (r.number == SHRIKE_DONE)
            printf("%s: done\n", said);
        else
            refused(said, r.number, r.place), printf("\n");
    }
}

/* Makes all steps as one group, and says what comes of it: whether it is done. */
static int all_as_one(unsigned from, unsigned to) {
    static uint32_t second[SHRIKE_MOST_TOKENS];
    char said[96];
    shrike_grouped r =
        shrike_group(table, SHRIKE_TABLE_WORDS, doc, SHRIKE_MOST_TOKENS, used, list, length, second, SHRIKE_MOST_TOKENS);
    snprintf(said, sizeof said, "%u becomes %u, group of %u", from, to, steps);
    used = r.used;
    if (r.number == SHRIKE_DONE) {
        printf("%s: done, %llu tokens, %+d\n", said, (unsigned long long)used, (int)r.change);
        return 1;
    }
    refused(said, r.number, r.place);
    if (r.which > 0) printf(", edit %u", (unsigned)r.which);
    printf(", %llu tokens\n", (unsigned long long)used);
    return 0;
}

int main(int argc, char **argv) {
    static uint8_t file[65536];
    unsigned long from = argc == 4 ? strtoul(argv[2], NULL, 10) : SHRIKE_MOST_NUMBER + 1;
    unsigned long to = argc == 4 ? strtoul(argv[3], NULL, 10) : 0;
    if (from > SHRIKE_MOST_NUMBER || to > SHRIKE_MOST_NUMBER) {
        fprintf(stderr, "usage: rename FOLDER FROM TO\n");
        return 2;
    }
    uint32_t version = shrike_version();
    if (!shrike_serves(version)) {
        printf("library: refused, version %u\n", (unsigned)version);
        return 1;
    }
    long n = load(argv[1], "schema.dat", file, sizeof file);
    if (n < 0) return 1;
    uint32_t number = shrike_translate(file, (size_t)n, table, SHRIKE_TABLE_WORDS);
    if (number != SHRIKE_DONE) {
        refused("schema", number, 0), printf("\n");
        return 1;
    }
    n = load(argv[1], "doc.dat", file, sizeof file);
    if (n < 0) return 1;
    shrike_count in = shrike_read(file, (size_t)n, doc, SHRIKE_MOST_TOKENS);
    if (in.number != SHRIKE_DONE) {
        refused("document", in.number, 0), printf("\n");
        return 1;
    }
    used = in.count;
    if (!checked()) return 1;
    rename_steps((uint32_t)from, (uint32_t)to);
    each_alone();
    return all_as_one((unsigned)from, (unsigned)to) && checked() ? 0 : 1;
}
