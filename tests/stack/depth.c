/* How much stack each call takes: it runs in a thread on a stack of our own that holds a pattern, and the lowest place that lost the
 * pattern tells. Prints a line for each call: its name and the bytes. The inputs reach the deepest frames: a model nested as deep as 255
 * symbols allow, a DTD's text with every form and such a model, a document of 8,192 tokens and 64 deep, an edit that is done at its end, a
 * comparison that finds something lost. POSIX threads. */
#define _GNU_SOURCE
#include "shrikemuff.h"

#include <pthread.h>
#include <stdio.h>
#include <stdlib.h>
#include <string.h>
#include <sys/mman.h>

#define STACK (4u << 20)
#define PATTERN 0xa5

static uint8_t schema[1024], file[3 * 8192];
static uint64_t table[SHRIKE_TABLE_WORDS], empty_table[SHRIKE_TABLE_WORDS];
static uint32_t doc[SHRIKE_MOST_TOKENS], used;
static int32_t counts[SHRIKE_COUNT_PLACES];

static void *nothing(void *answer) {
    return answer;
}

static void *reads(void *answer) {
    static uint32_t tokens[SHRIKE_MOST_TOKENS];
    shrike_count r = shrike_read(file, sizeof file, tokens, SHRIKE_MOST_TOKENS);
    *(uint32_t *)answer = r.number;
    return answer;
}

static void *writes(void *answer) {
    static uint8_t bytes[3 * SHRIKE_MOST_TOKENS];
    shrike_count r = shrike_write(doc, used, bytes, sizeof bytes);
    *(uint32_t *)answer = r.number;
    return answer;
}

/* A DTD's text of two elements: comments in every length of a Char, all kinds and statuses, a model of 255 symbols, 64 attributes. */
static char text[8192];

static void say(const char *words) {
    strcat(text, words);
}

static void say_text(void) {
    char name[40];
    say("<!-- a \xc3\xa9 \xe2\x82\xac \xf0\x9d\x84\x9e - comment -->\n<!ELEMENT b (#PCDATA)>\n<!ELEMENT a ");
    for (int i = 0; i < 251; i++) say("( ");
    say("(b | a)*");
    for (int i = 0; i < 251; i++) say(" )?");
    say(" >\n<!ATTLIST a i ID #REQUIRED j IDREF #IMPLIED k IDREFS #IMPLIED>\n<!ATTLIST b");
    for (int i = 0; i < 61; i++) {
        snprintf(name, sizeof name, " x%d CDATA #IMPLIED", i);
        say(name);
    }
    say(">\n");
}

static void *imports(void *answer) {
    static uint8_t made[SHRIKE_MOST_SCHEMA_FILE];
    shrike_count r = shrike_import((const uint8_t *)text, strlen(text), made, sizeof made);
    *(uint32_t *)answer = r.number;
    return answer;
}

static void *lists(void *answer) {
    static uint8_t names[sizeof text];
    shrike_count r = shrike_names((const uint8_t *)text, strlen(text), names, sizeof names);
    *(uint32_t *)answer = r.number;
    return answer;
}

static void *spots(void *answer) {
    shrike_spot r = shrike_import_spot((const uint8_t *)text, strlen(text));
    *(uint32_t *)answer = r.number;
    return answer;
}

static size_t schema_length;

static void *translates(void *answer) {
    *(uint32_t *)answer = shrike_translate(schema, schema_length, table, SHRIKE_TABLE_WORDS);
    return answer;
}

static void *checks(void *answer) {
    shrike_verdict r = shrike_check(table, SHRIKE_TABLE_WORDS, doc, SHRIKE_MOST_TOKENS, used, counts);
    *(uint32_t *)answer = r.number;
    return answer;
}

static void *edits(void *answer) {
    static const uint32_t piece[] = {1 * 8 + 1, 2};
    static uint32_t back[SHRIKE_MOST_BACK];
    shrike_answer r =
        shrike_edit(table, SHRIKE_TABLE_WORDS, doc, SHRIKE_MOST_TOKENS, used, 1, used - 1, piece, 2, back, SHRIKE_MOST_BACK, counts);
    *(uint32_t *)answer = r.number;
    return answer;
}

/* A list of edits that are done, the first two of which fill the document. */
static void *steps(void *answer) {
    static const uint32_t list[] = {2, 1, 0, 1, 1, 2, 1 * 8 + 1, 2, 3, 1, 2, 1 * 8 + 1, 2, 2, 3, 0};
    shrike_listed r = shrike_list(table, SHRIKE_TABLE_WORDS, doc, SHRIKE_MOST_TOKENS, used, list, sizeof list / sizeof *list, counts);
    *(uint32_t *)answer = r.last.number == 0 && r.done == 4 ? 0 : 1 + r.last.number;
    return answer;
}

/* A group of the same edits. */
static void *groups(void *answer) {
    static const uint32_t list[] = {2, 1, 0, 1, 1, 2, 1 * 8 + 1, 2, 3, 1, 2, 1 * 8 + 1, 2, 1, 3, 2, 1 * 8 + 1, 2, 2, 3, 0};
    static uint32_t second[SHRIKE_MOST_TOKENS];
    shrike_grouped r = shrike_group(table, SHRIKE_TABLE_WORDS, doc, SHRIKE_MOST_TOKENS, used, list, sizeof list / sizeof *list, second,
                                    SHRIKE_MOST_TOKENS);
    *(uint32_t *)answer = r.number;
    return answer;
}

static void *asks(void *answer) {
    shrike_count r = shrike_elements(table, SHRIKE_TABLE_WORDS, counts, 0);
    *(uint32_t *)answer = r.number;
    return answer;
}

static void *compares(void *answer) {
    static uint32_t sequence[SHRIKE_SEQUENCE_PLACES];
    shrike_compared r = shrike_compare(table, SHRIKE_TABLE_WORDS, empty_table, SHRIKE_TABLE_WORDS, 0, sequence, SHRIKE_SEQUENCE_PLACES);
    *(uint32_t *)answer = r.number == 0 && r.takes_all == 0 && r.length == 1 ? 0 : 1 + r.number;
    return answer;
}

/* The bytes of stack that the thread takes. */
static size_t taken(void *(*work)(void *), uint32_t *answer) {
    uint8_t *stack = mmap(NULL, STACK, PROT_READ | PROT_WRITE, MAP_PRIVATE | MAP_ANONYMOUS, -1, 0);
    pthread_attr_t how;
    pthread_t thread;
    size_t low = 0;
    if (stack == MAP_FAILED) abort();
    memset(stack, PATTERN, STACK);
    if (pthread_attr_init(&how) != 0 || pthread_attr_setstack(&how, stack, STACK) != 0) abort();
    if (pthread_create(&thread, &how, work, answer) != 0 || pthread_join(thread, NULL) != 0) abort();
    pthread_attr_destroy(&how);
    while (low < STACK && stack[low] == PATTERN) low++;
    munmap(stack, STACK);
    return STACK - low;
}

static size_t thread_alone;
static int wrong;

static void told(const char *name, void *(*work)(void *)) {
    uint32_t answer = 99;
    size_t bytes = taken(work, &answer);
    printf("%s %zu\n", name, bytes < thread_alone ? 0 : bytes - thread_alone);
    if (answer == 0) return;
    fprintf(stderr, "tests/stack: %s answers %u and should be done\n", name, (unsigned)answer);
    wrong = 1;
}

int main(void) {
    /* two elements, both EMPTY */
    static const uint8_t empty[] = {2, 0, 0, 0, 0, 0};
    uint32_t i, answer = 0;
    uint8_t *s = schema;
    /* two elements: 0 is (0|1)* in 251 brackets that say "optional", with 255 symbols in all; 1 is EMPTY */
    *s++ = 2, *s++ = 0;
    *s++ = 2, *s++ = 255, *s++ = 1;
    for (i = 0; i < 251; i++) *s++ = SHRIKE_OPTIONAL;
    *s++ = SHRIKE_ZERO_OR_MORE, *s++ = SHRIKE_CHOICE, *s++ = SHRIKE_NAMED, *s++ = SHRIKE_NAMED + 1;
    *s++ = 0;
    *s++ = 0, *s++ = 0;
    schema_length = (size_t)(s - schema);
    /* 64 deep at the end; 8,190 tokens, so that an insert fills the buffer */
    for (used = 0; used < 1; used++) doc[used] = 1;
    while (used < 8190 - 127) doc[used++] = 1 * 8 + 1, doc[used++] = 2;
    for (i = 0; i < 63; i++) doc[used++] = 1;
    for (i = 0; i < 63; i++) doc[used++] = 2;
    doc[used++] = 2;
    for (i = 0; i < sizeof file; i++) file[i] = i % 3 == 2 ? 1 : 128;
    if (shrike_translate(empty, sizeof empty, empty_table, SHRIKE_TABLE_WORDS) != 0) abort();
    say_text();
    thread_alone = taken(nothing, &answer);
    told("shrike_read", reads);
    told("shrike_write", writes);
    told("shrike_import", imports);
    told("shrike_names", lists);
    told("shrike_import_spot", spots);
    told("shrike_translate", translates);
    told("shrike_check", checks);
    told("shrike_edit", edits);
    used += 2;
    told("shrike_list", steps);
    used -= 2;
    told("shrike_group", groups);
    told("shrike_elements", asks);
    told("shrike_compare", compares);
    return wrong;
}
