/* A host in C: loads a schema, a document and edits from the files of a folder, and says in words what comes of each; of an edit that is
 * done also how the length changed, and at how many children it looked; and each time how many panels there are. Then it takes back all that
 * were done, the last one first, and says whether the document is the first one again. Then it makes the edits of the file as a script step,
 * in one call, which ends at the first that is refused; and, of the first document, those that were done, and says whether that gives the
 * document of single edits.
 *
 *     cc -Iinclude -o shade examples/c/shade.c target/host/libshrikemuff.a
 *     ./shade samples/small-shade
 *
 * Ends with 0 once every edit was tried and taken back, and with 1 if the library, a file, the schema or the document is refused, or if the
 * document is another one after the steps back or after the last list. */
#include "shrikemuff.h"

#include <stdio.h>
#include <string.h>

static const char *const operations[] = {"no operation", "insert", "remove", "replace", "set", "drop"};

/* A file's bytes; a longer file is not read. */
struct bytes {
    size_t length;
    uint8_t at[65536];
};

static struct bytes schema, document, edits;
static uint64_t table[SHRIKE_TABLE_WORDS], used;
static int32_t counts[SHRIKE_COUNT_PLACES];
static uint32_t doc[SHRIKE_MOST_TOKENS], piece[SHRIKE_MOST_TOKENS];

/* The steps back stand end to end in `backs`: an edit is lent all that is free there. The edits of one file do not fill it, as a token that
 * goes has come with the document or from the file; and an edit is three numbers there at least. */
static struct {
    unsigned line;
    const uint32_t *at;
} steps[sizeof edits.at / 3];
static uint32_t backs[4 * sizeof edits.at];

/* The edits of the file as lists: all of them, and those that were done. Each number has a byte in the file. */
struct list {
    size_t n;
    uint32_t at[sizeof edits.at];
};
static struct list all, good;

/* The document at first, and after all edits. */
struct state {
    uint64_t used;
    int32_t counts[SHRIKE_COUNT_PLACES];
    uint32_t doc[SHRIKE_MOST_TOKENS];
};
static struct state first, last;

/* Loads FOLDER/NAME. */
static int load(const char *folder, const char *name, struct bytes *b) {
    char path[4096];
    int fits = snprintf(path, sizeof path, "%s/%s", folder, name) < (int)sizeof path;
    FILE *f = fits ? fopen(path, "rb") : NULL;
    int good = 0;
    if (f != NULL) {
        b->length = fread(b->at, 1, sizeof b->at, f);
        good = getc(f) == EOF && !ferror(f);
        fclose(f);
    }
    if (!good) printf("%s: not to be read\n", name);
    return good;
}

/* Says how many panels there are: element 1 of the small shade. */
static void panels(void) {
    shrike_count r = shrike_elements(table, SHRIKE_TABLE_WORDS, counts, 1);
    if (r.number == SHRIKE_DONE)
        printf(", panels: %u\n", (unsigned)r.count);
    else
        printf(", panels: refused, %s\n", shrike_words(r.number));
}

/* Says that something is refused. */
static void refused(const char *what, uint32_t number, uint32_t place) {
    printf("%s: refused, %s", what, shrike_words(number));
    if (number >= SHRIKE_NAME && number <= SHRIKE_NO_ID) printf(" at %u", (unsigned)place);
}

/* The next number of a file, or -1 if it is broken. */
static int32_t next(const struct bytes *b, size_t *at) {
    int32_t value = 0;
    for (int shift = 0; shift < 21 && *at < b->length; shift += 7) {
        uint8_t byte = b->at[(*at)++];
        value |= (int32_t)(byte & 127) << shift;
        if (byte < 128) return shift > 0 && byte == 0 ? -1 : value;
    }
    return -1;
}

/* One edit of the file: operation, place, piece count, piece. Answers 0, or the number of what is wrong with the file. */
static uint32_t next_edit(size_t *at, uint32_t *operation, uint32_t *place, size_t *n) {
    int32_t o = next(&edits, at);
    int32_t p = o < 0 ? -1 : next(&edits, at);
    int32_t count = p < 0 ? -1 : next(&edits, at);
    if (count < 0) return SHRIKE_BROKEN;
    if (count > SHRIKE_MOST_TOKENS) return SHRIKE_ROOM;
    for (int32_t i = 0; i < count; i++) {
        int32_t token = next(&edits, at);
        if (token < 0) return SHRIKE_BROKEN;
        piece[i] = (uint32_t)token;
    }
    *operation = (uint32_t)o;
    *place = (uint32_t)p;
    *n = (size_t)count;
    return SHRIKE_DONE;
}

/* Says what comes of an edit, or of the last one of a list: whether it is done. The document's length is the answer's. */
static int told(const char *what, shrike_answer answer) {
    used = answer.used;
    if (answer.number != SHRIKE_DONE) {
        refused(what, answer.number, answer.place);
        printf(", %llu tokens", (unsigned long long)used);
    } else {
        printf("%s: done, %llu tokens, %+d", what, (unsigned long long)used, (int)answer.change);
        printf(", looked at %u", (unsigned)answer.children);
    }
    panels();
    return answer.number == SHRIKE_DONE;
}

/* Makes an edit, and says what comes of it: whether it is done. */
static int made(const char *what, unsigned line, uint32_t operation, uint32_t place, const uint32_t *with, size_t n, uint32_t *back,
                size_t back_room) {
    char said[64];
    shrike_answer answer =
        shrike_edit(table, SHRIKE_TABLE_WORDS, doc, SHRIKE_MOST_TOKENS, used, operation, place, with, n, back, back_room, counts);
    snprintf(said, sizeof said, "%s %u, %s at %u", what, line, operations[operation <= SHRIKE_DROP ? operation : 0], (unsigned)place);
    return told(said, answer);
}

/* The document and its counts are kept, and taken again. */
static void keep(struct state *s) {
    s->used = used;
    memcpy(s->counts, counts, sizeof counts);
    memcpy(s->doc, doc, sizeof doc);
}

static void again(const struct state *s) {
    used = s->used;
    memcpy(counts, s->counts, sizeof counts);
    memcpy(doc, s->doc, sizeof doc);
}

/* Whether the document is that one, and its counts are; and says so. */
static int is(const struct state *s, const char *which) {
    int same = used == s->used && memcmp(s->doc, doc, used * sizeof *doc) == 0 && memcmp(s->counts, counts, sizeof counts) == 0;
    printf("document: %s%s, %llu tokens\n", same ? "" : "not ", which, (unsigned long long)used);
    return same;
}

/* One more edit in a list, with the piece that was read. */
static void add(struct list *l, uint32_t operation, uint32_t place, size_t n) {
    uint32_t *to = l->at + l->n;
    to[0] = operation, to[1] = place, to[2] = (uint32_t)n;
    memcpy(to + 3, piece, n * sizeof *piece);
    l->n += 3 + n;
}

/* Makes the edits of a list, 256 in a call, up to one that is refused. */
static void script(const struct list *l) {
    size_t at = 0;
    int done;
    do {
        char said[64];
        size_t edits_here = 0, end = at;
        for (; edits_here < SHRIKE_MOST_EDITS && end < l->n; edits_here++) end += 3 + l->at[end + 2];
        shrike_listed r = shrike_list(table, SHRIKE_TABLE_WORDS, doc, SHRIKE_MOST_TOKENS, used, l->at + at, end - at, counts);
        snprintf(said, sizeof said, "list of %zu edits, %u done", edits_here, (unsigned)r.done);
        done = told(said, r.last);
        at = end;
    } while (done && at < l->n);
}

/* Makes all edits of the file, and takes back those that were done, the last one first. Answers 0, or the number of what is wrong with the
 * file. */
static uint32_t there_and_back(void) {
    static uint32_t other[SHRIKE_MOST_BACK];
    uint32_t *top = backs, *const end = backs + sizeof backs / sizeof *backs;
    size_t at = 0, done = 0;
    for (unsigned line = 1; at < edits.length; line++) {
        uint32_t operation, place;
        size_t n;
        uint32_t number = next_edit(&at, &operation, &place, &n);
        if (number != SHRIKE_DONE) return number;
        add(&all, operation, place, n);
        if (made("edit", line, operation, place, piece, n, top, (size_t)(end - top))) {
            add(&good, operation, place, n);
            steps[done].line = line;
            steps[done++].at = top;
            top += 3 + top[2];
        }
    }
    keep(&last);
    while (done > 0) {
        const uint32_t *back = steps[--done].at;
        made("back from edit", steps[done].line, back[0], back[1], back + 3, back[2], other, SHRIKE_MOST_BACK);
    }
    return SHRIKE_DONE;
}

int main(int argc, char **argv) {
    if (argc != 2) {
        fprintf(stderr, "usage: shade FOLDER\n");
        return 2;
    }
    uint32_t version = shrike_version();
    if (!shrike_serves(version)) {
        printf("library: refused, version %u\n", (unsigned)version);
        return 1;
    }
    if (!load(argv[1], "schema.dat", &schema) || !load(argv[1], "doc.dat", &document) || !load(argv[1], "edits.dat", &edits)) return 1;

    uint32_t number = shrike_translate(schema.at, schema.length, table, SHRIKE_TABLE_WORDS);
    if (number != SHRIKE_DONE) {
        refused("schema", number, 0);
        printf("\n");
        return 1;
    }
    shrike_count in = shrike_read(document.at, document.length, doc, SHRIKE_MOST_TOKENS);
    if (in.number != SHRIKE_DONE) {
        refused("document", in.number, 0);
        printf("\n");
        return 1;
    }
    used = in.count;
    shrike_verdict verdict = shrike_check(table, SHRIKE_TABLE_WORDS, doc, SHRIKE_MOST_TOKENS, used, counts);
    if (verdict.number != SHRIKE_DONE) {
        refused("check", verdict.number, verdict.place);
        printf(", %llu tokens\n", (unsigned long long)used);
        return 1;
    }
    printf("check: valid, %llu tokens", (unsigned long long)used);
    panels();

    keep(&first);
    number = there_and_back();
    if (number != SHRIKE_DONE) {
        refused("edits", number, 0);
        printf("\n");
        return 1;
    }
    if (!is(&first, "the first one again")) return 1;
    script(&all);
    again(&first);
    script(&good);
    return is(&last, "that of single edits") ? 0 : 1;
}
