/* A host in C that makes a schema file of a DTD's text, as a maker sends it.
 *
 *     cc -Iinclude -o import examples/c/import.c target/host/libshrikemuff.a
 *     ./import samples/small-shade/shade.dtd -o schema.dat
 *     ./import --names samples/small-shade/shade.dtd
 *
 * Without -o the file is written to standard output. With --names it is the list of names: those of the elements by number, then those of the
 * attributes, each on a line of its own. A text that is refused is told on standard error, as compilers do: FILE:LINE:COLUMN: error: WORDS
 * [NUMBER], the column in bytes. Models that are ambiguous pass here; shrike_translate refuses them.
 *
 * Ends with 0 if all is written, with 1 if the text is refused, and with 2 if nothing can be said: the library or the usage is refused, a file
 * cannot be read or written. */
#include "shrikemuff.h"

#include <stdio.h>
#include <string.h>

/* A file's bytes; a longer file is not read. The names of a text take no more room than the text. */
static uint8_t text[1 << 20], made[1 << 20];
static size_t length;

static int load(const char *path) {
    FILE *f = fopen(path, "rb");
    int good = 0;
    if (f != NULL) {
        length = fread(text, 1, sizeof text, f);
        good = getc(f) == EOF && !ferror(f);
        fclose(f);
    }
    if (!good) fprintf(stderr, "%s: error: not to be read\n", path);
    return good;
}

/* Writes what was made to a file, or to standard output. */
static int stored(const char *path, size_t n) {
    FILE *f = path == NULL ? stdout : fopen(path, "wb");
    int good = f != NULL && fwrite(made, 1, n, f) == n;
    if (f != NULL && (path == NULL ? fflush(f) : fclose(f)) != 0) good = 0;
    if (!good) fprintf(stderr, "%s: error: not to be written\n", path == NULL ? "standard output" : path);
    return good;
}

/* Says where the text is refused: line and column from 1. */
static void refused(const char *path, uint32_t number) {
    shrike_spot spot = shrike_import_spot(text, length);
    unsigned long line = 1, column = 1;
    for (uint64_t i = 0; i < spot.offset && i < length; i++) {
        column++;
        if (text[i] == '\n') line++, column = 1;
    }
    fprintf(stderr, "%s:%lu:%lu: error: %s [%u]\n", path, line, column, shrike_words(number), (unsigned)number);
}

int main(int argc, char **argv) {
    const char *from = NULL, *to = NULL;
    int names = 0, usage = 0;
    for (int i = 1; i < argc; i++) {
        if (strcmp(argv[i], "--names") == 0) {
            names = 1;
        } else if (strcmp(argv[i], "-o") == 0 && i + 1 < argc && to == NULL) {
            to = argv[++i];
        } else if (argv[i][0] != '-' && from == NULL) {
            from = argv[i];
        } else {
            usage = 1;
        }
    }
    if (usage || from == NULL) {
        fprintf(stderr, "usage: import [--names] FILE.dtd [-o FILE]\n");
        return 2;
    }
    uint32_t version = shrike_version();
    if (!shrike_serves(version)) {
        fprintf(stderr, "library: refused, version %u\n", (unsigned)version);
        return 2;
    }
    if (!load(from)) return 2;
    shrike_count r = names ? shrike_names(text, length, made, sizeof made) : shrike_import(text, length, made, sizeof made);
    if (r.number != SHRIKE_DONE) {
        refused(from, r.number);
        return 1;
    }
    return stored(to, r.count) ? 0 : 2;
}
