/* In place of the library, one that is newer than its host. Its version is NEWER_BY more than the header's, and the call that NEW_IN names
 * answers a number that the header does not have; the others say that all is done, and do nothing. */
#include "shrikemuff.h"

#include <stdlib.h>
#include <string.h>

static uint32_t answer(const char *call) {
    const char *name = getenv("NEW_IN");
    return name != NULL && strcmp(name, call) == 0 ? SHRIKE_TABLE + 1000 : SHRIKE_DONE;
}

uint32_t shrike_version(void) {
    const char *more = getenv("NEWER_BY");
    return SHRIKE_VERSION + (more == NULL ? 0 : (uint32_t)atol(more));
}

shrike_count shrike_read(const uint8_t *file, size_t file_len, uint32_t *tokens, size_t room) {
    shrike_count r = {answer("read"), 0};
    return (void)file, (void)file_len, (void)tokens, (void)room, r;
}

shrike_count shrike_write(const uint32_t *tokens, size_t n, uint8_t *file, size_t room) {
    shrike_count r = {answer("write"), 0};
    return (void)tokens, (void)n, (void)file, (void)room, r;
}

shrike_count shrike_import(const uint8_t *text, size_t n, uint8_t *file, size_t room) {
    shrike_count r = {answer("import"), 0};
    return (void)text, (void)n, (void)file, (void)room, r;
}

shrike_count shrike_names(const uint8_t *text, size_t n, uint8_t *names, size_t room) {
    shrike_count r = {answer("names"), 0};
    return (void)text, (void)n, (void)names, (void)room, r;
}

shrike_spot shrike_import_spot(const uint8_t *text, size_t n) {
    shrike_spot r = {answer("import_spot"), 0};
    return (void)text, (void)n, r;
}

uint32_t shrike_translate(const uint8_t *file, size_t file_len, uint64_t *table, size_t words) {
    return (void)file, (void)file_len, (void)table, (void)words, answer("translate");
}

shrike_verdict shrike_check(const uint64_t *table, size_t words, const uint32_t *doc, size_t room, uint64_t used, int32_t *counts) {
    shrike_verdict r = {answer("check"), 0};
    return (void)table, (void)words, (void)doc, (void)room, (void)used, (void)counts, r;
}

shrike_answer shrike_edit(const uint64_t *table, size_t words, uint32_t *doc, size_t room, uint64_t used, uint32_t operation,
                          uint64_t place, const uint32_t *piece, size_t n, uint32_t *back, size_t back_room, int32_t *counts) {
    shrike_answer r = {answer("edit"), 0, used, 0, 0};
    (void)table, (void)words, (void)doc, (void)room, (void)operation, (void)place, (void)piece, (void)n, (void)back, (void)back_room;
    (void)counts;
    return r;
}

shrike_listed shrike_list(const uint64_t *table, size_t words, uint32_t *doc, size_t room, uint64_t used, const uint32_t *list, size_t n,
                          int32_t *counts) {
    shrike_listed r = {{answer("list"), 0, used, 0, 0}, 0};
    return (void)table, (void)words, (void)doc, (void)room, (void)list, (void)n, (void)counts, r;
}

shrike_grouped shrike_group(const uint64_t *table, size_t words, uint32_t *doc, size_t room, uint64_t used, const uint32_t *list, size_t n,
                            uint32_t *second, size_t second_room) {
    shrike_grouped r = {answer("group"), 0, used, 0, 0};
    return (void)table, (void)words, (void)doc, (void)room, (void)list, (void)n, (void)second, (void)second_room, r;
}

shrike_count shrike_elements(const uint64_t *table, size_t words, const int32_t *counts, uint32_t name) {
    shrike_count r = {answer("elements"), 0};
    return (void)table, (void)words, (void)counts, (void)name, r;
}

shrike_compared shrike_compare(const uint64_t *old_table, size_t old_words, const uint64_t *new_table, size_t new_words, uint32_t element,
                               uint32_t *sequence, size_t room) {
    shrike_compared r = {answer("compare"), 0, 0};
    return (void)old_table, (void)old_words, (void)new_table, (void)new_words, (void)element, (void)sequence, (void)room, r;
}
