/* shrikemuff.h: small XML documents, held as tokens, kept to their schema.
 *
 * Twelve calls: a document file is read into tokens and written from them; a DTD's text becomes a schema file, its names are listed, and the
 * spot is told at which it is refused; a schema file is translated to a table; a document is checked by a table; a document is edited, and
 * stays as it was unless the edited document keeps to the schema, and each edit that is done tells the one that takes it back; a script
 * step, a list of edits, is made in one call, and a group of edits, such as a rename, is made as one edit; the numbers of elements, which
 * checks, edits and lists keep beside a document, are asked for; two tables are compared, whether the new one takes what the old one takes
 * in an element. A thirteenth tells the library's version.
 * Link libshrikemuff.a. ISO C99, and C++; Linux on x86-64.
 *
 * What each call answers, and what it leaves in every place of the memory lent to it, is proved of the source that the library is compiled
 * from. The compiler that makes machine code of it is not proved.
 *
 *
 * MEMORY
 *
 * All memory is the caller's: lent for the call, and not kept. No call allocates, none has state, none needs setting up.
 *
 * An array is lent as a pointer and its length in elements (not in bytes), and has that many. It is aligned for its type: 4 bytes for
 * uint32_t and int32_t, 8 for uint64_t. With length 0 nothing is read or written, and the pointer may be anything, NULL too. `counts` alone
 * is lent without a length: it always has SHRIKE_COUNT_PLACES places, of int32_t, and is never NULL.
 *
 * An array that a call writes to (a pointer without `const`) overlaps nothing else that is lent to that call.
 *
 * A refused call leaves everything lent as it was; of a list of edits this holds for the edit that is refused, and what was done before it
 * stands; the second buffer of a group is written once its first edit has begun. Apart from this nothing is asked: any bytes, numbers and
 * lengths get an answer.
 *
 * Calls may run in several threads at once, as long as no array that one of them writes to is lent to another. A table that is written
 * once may serve all threads.
 *
 * Stack of a call, compiled for x86-64, in bytes:
 *
 *     shrike_read                     under 33,000
 *     shrike_write, shrike_version    under 100
 *     shrike_import                   under 37,000
 *     shrike_names                    under 10,000
 *     shrike_import_spot              under 10,000
 *     shrike_translate                under 104,000
 *     shrike_check                    under 42,000
 *     shrike_edit                     under 75,000
 *     shrike_list                     under 225,000
 *     shrike_group                    under 75,000
 *     shrike_elements                 under 1,000
 *     shrike_compare                  under 57,000
 *
 * So a thread keeps 256 KiB free. (A main thread has 8 MiB by custom. Threads of musl have 128 KiB unless they ask for more.) A large
 * frame is touched a page at a time, from the top: where there is too little, the guard page is met and nothing is overwritten.
 *
 * The library calls memcpy and memset and nothing else. It does no input or output, and each call ends.
 *
 *
 * VERSIONS
 *
 * SHRIKE_VERSION is this header's version, shrike_version() is the library's. Another major number: something that was there is another.
 * Another minor number: something was added. So a library serves a program that is compiled with a header of the same major number and
 * no higher minor one: `shrike_serves(shrike_version())` says whether it does. A host that asks this first, and takes any answer that it
 * does not know as a refusal, need not change for a newer library.
 *
 *
 * NUMBERS IN FILES
 *
 * A file is a run of numbers from 0 to 2,097,151, each in one to three bytes. A byte carries seven bits, the lowest group first; the top
 * bit is set in all bytes of a number but the last. Only the shortest form counts. 127 is one byte, 128 is the bytes 128 1, and 2,097,151
 * is 255 255 127. A number is broken if the file ends inside it, if it calls for a fourth byte, or if it has several bytes and the last
 * is 0.
 *
 * shrike_write writes any such numbers, and shrike_read reads them: those of a schema file too, as if they were tokens, up to 8,192 in a
 * call. A file of more is written in parts, each behind the last.
 *
 *
 * DTD TEXTS
 *
 * A DTD's text is any bytes; those that are taken are XML 1.0's external subset cut down to this:
 *
 *     text     ::=  (S | comment | element | attlist)*
 *     element  ::=  '<!ELEMENT' S name S ('EMPTY' | '(' S? '#PCDATA' S? ')' | bracket suffix?) S? '>'
 *     bracket  ::=  '(' S? part (S? ',' S? part)* S? ')'  |  '(' S? part (S? '|' S? part)+ S? ')'
 *     part     ::=  (name | bracket) suffix?
 *     suffix   ::=  '?' | '*' | '+'
 *     attlist  ::=  '<!ATTLIST' S name (S name S kind S status)* S? '>'
 *     kind     ::=  'CDATA' | 'ID' | 'IDREF' | 'IDREFS'
 *     status   ::=  '#REQUIRED' | '#IMPLIED'
 *     comment  ::=  '<!--', Chars of XML 1.0 in UTF-8 with no '--' among them and no '-' at their end, '-->'
 *     name     ::=  an ASCII letter, '_' or ':', then any number of those, of digits, of '-' and of '.'; as long as it goes
 *     S        ::=  one or more of the bytes 32, 9, 13 and 10
 *
 * Brackets may nest as deep as the text is long. A keyword may be a name too. Outside are a byte order mark, a text declaration,
 * instructions, entities and references to them, notations, conditional sections, ANY, mixed content, enumerations, NMTOKEN and the like,
 * default values and #FIXED.
 *
 * The schema file of a text is this one. Elements are numbered by declaration, and the first is the root. Attributes are numbered by first
 * appearance in the whole text, one number for each different name. EMPTY is kind 0, (#PCDATA) kind 1, a model kind 2. A suffix is one
 * symbol before what it stands behind. A bracket round one part is that part; (a,b,c) is a and then the pair b, c, and a choice likewise.
 * Nothing is simplified: ((a?)?) has the symbols 2 2 5+a. An element's attributes are those of all its ATTLISTs, wherever they stand.
 *
 * The text is read once from the front, and the first fault that is met decides. The spot at which it is refused stands behind each:
 *
 *     14  a byte that cannot go on: that byte, in a keyword the first that leaves every allowed word; the text's length, if it stops too early
 *     14  an element that was declared before, an attribute that was declared before for the same element; met where the name ends, before
 *         the limits: the name's first byte
 *      2  a 49th element, a 65th different name of an attribute, met where the name ends: the name's first byte
 *      2  a second ID of an element, over all its ATTLISTs, met behind its kind: the kind's first byte
 *      2  a model of over 255 symbols or with over 64 names, met behind its last bracket and suffix: its first bracket
 *     14  at the end, if no element was declared: the text's length
 *     14  at the end, an element that a model or an ATTLIST names and nothing declares: the first byte of the first such name in the text
 *      5  last of all, no room; no spot goes with it
 *
 * Whether a model is ambiguous is asked by shrike_translate (3), and nothing else in a file that shrike_import wrote is refused there. The
 * table then judges content by the text's own expressions.
 *
 *
 * TOKENS
 *
 * Names and strings are numbers: the host keeps the strings, one number for each different string. A token is number * 8 + sort, the
 * number at most 65,535:
 *
 *     1  start of an element; the number is its name
 *     2  end of an element; the number is 0, so the token is 2
 *     3  text
 *     4  attribute; the number is its name
 *     5  value of the attribute before it
 *
 * SHRIKE_START_TOKEN(number) and the like make a token of a number within the limit; SHRIKE_SORT(token) and SHRIKE_NUMBER(token) take one
 * apart.
 *
 * A document is one element. It has shape if it has 2 to 8,192 tokens, all as above; token 0 is a start, and its end is the last token;
 * starts and ends balance, at most 64 deep with the root at 1; attributes stand directly after their start, numbers strictly rising, each
 * followed by one or more values; and values stand nowhere else. A document's file is its tokens as numbers and nothing else.
 *
 * A document stands in the first `used` places of a buffer of `room` places. What the places behind it hold is of no account.
 *
 *
 * TABLES
 *
 * A table is a schema as the check, the edits and the comparison use it; a host need not look into it. Word 0 is the number of elements E,
 * word 1 the root.
 * From SHRIKE_BLOCKS_AT on stands a block of SHRIKE_BLOCK_WORDS words for each of 48 elements. It holds, each from its SHRIKE_.._AT on:
 * the kind; the sets of attributes that are allowed, required, ID, IDREF and IDREFS, bit k for attribute k; the number n of names that
 * occur in the model; 1 if no child at all matches, else 0; the sets of occurrences that can be first, and last, bit k for occurrence k,
 * from 0 in reading order; 64 words for the names of the occurrences; 64 words for the sets of those that can come directly after each.
 * Words of no use, and the blocks from E on, are 0. For kinds 0 and 1 everything from n on is 0.
 * At SHRIKE_FIXED_COUNT_AT stands the number of fixed attributes, and from SHRIKE_FIXED_AT on SHRIKE_MOST_FIXED entries of SHRIKE_FIXED_WORDS
 * words: element, attribute and value. Entries rise by element and then attribute; those of no use are 0.
 *
 *
 * COUNTS
 *
 * Beside a document stand SHRIKE_COUNT_PLACES counts: count k is the number of elements of name k, for names below the number of elements E
 * of the schema. Names of E and above are counted nowhere, and those counts are 0. Counts that say so are true. The host keeps one array for
 * each document, lends it to each call, and need not look into it: shrike_elements answers from it.
 *
 * A check that says valid writes true counts. Edits and lists carry them along: an edit that is done moves them by what comes less what goes,
 * and looks at nothing else for it. So true counts stay true, whether an edit is done or refused, and are always those that a fresh check
 * would write. A host that changes a document in any other way, as by a group, checks it before the next edit or list.
 *
 * Counts that are not true are taken too, whatever they hold. Sums are exact. An edit after which one of them would be below 0 or above 8,192
 * is refused (15), also one that moves none; true counts never meet this.
 *
 *
 * ANSWERS
 *
 *                                                   read  write  import  names  spot  translate  check  edit  list  group  elements  compare
 *      0  valid, or done                              *     *       *      *      *       *        *      *     *     *        *        *
 *      1  broken number                               *                                   *
 *      2  schema value, form or limit                               *      *      *       *
 *      3  ambiguous model                                                                 *
 *      4  no shape, or bad piece                            *                                      *      *     *     *
 *      5  too large, or no room                       *     *       *      *                              *     *     *                 *
 *      6  operation, place or element                                                                     *     *     *                 *
 *      7  name: the element is not declared                                                               *     *
 *      8  attributes                                                                               *      *     *     *
 *      9  content                                                                                  *      *     *     *
 *     10  root: not the schema's                                                                   *      *     *     *
 *     11  ID twice                                                                                 *      *     *     *
 *     12  reference to no ID                                                                       *      *     *     *
 *     13  table: not of 6,675 words, or not proper                                        *        *      *     *     *        *        *
 *     14  DTD text                                                  *      *      *
 *     15  counts: one below 0 or above 8,192                                                              *     *              *
 *     16  kind not compared                                                                                                             *
 *
 * A call gives the first that applies, in the order that stands with it. shrike_words(number) says an answer in words.
 *
 * A place is the index of a token, from 0. For 7 and 8 it is the start of the element that has the fault. For 9 it is the first child or
 * text of that element at which no valid content can begin that way: an empty element's first, a text-only one's first child or second
 * text, else the first child that the model does not allow after those before it, or a text; or it is the element's end, if the children
 * before it stop too early. (By a table that was not translated it is the first child that has no next occurrence, else the end.) For 10
 * it is 0, for 11 the later of the two values, for 12 the value that refers to nothing. For other numbers it is 0.
 */
#ifndef SHRIKEMUFF_H
#define SHRIKEMUFF_H

#include <stddef.h>
#include <stdint.h>

#ifdef __cplusplus
extern "C" {
#endif

/* This header's version. */
#define SHRIKE_VERSION_MAJOR 2
#define SHRIKE_VERSION_MINOR 0
#define SHRIKE_VERSION_PATCH 0
#define SHRIKE_VERSION (SHRIKE_VERSION_MAJOR * 1000000 + SHRIKE_VERSION_MINOR * 1000 + SHRIKE_VERSION_PATCH)

/* Limits: the most that is taken. */
enum {
    SHRIKE_MOST_TOKENS = 8192,       /* tokens of a document, or of a piece */
    SHRIKE_MOST_BYTES = 24576,       /* bytes of a document's file: three for each token */
    SHRIKE_MOST_DEEP = 64,           /* depth of a document, or of a piece, the root at 1 */
    SHRIKE_MOST_NUMBER = 65535,      /* number of a token */
    SHRIKE_MOST_VALUE = 2097151,     /* number in a file */
    SHRIKE_MOST_ELEMENTS = 48,       /* elements of a schema */
    SHRIKE_MOST_SYMBOLS = 255,       /* symbols of a model */
    SHRIKE_MOST_NAMES = 64,          /* names that occur in a model */
    SHRIKE_MOST_ATTRIBUTES = 64,     /* attributes of an element; their numbers are below it */
    SHRIKE_MOST_FIXED = 16,          /* fixed attributes of a schema */
    SHRIKE_MOST_SCHEMA_FILE = 21650, /* bytes of the schema file of a DTD text */
    SHRIKE_MOST_BACK = 8195,         /* numbers of the edit that takes an edit back: three, and its piece */
    SHRIKE_MOST_EDITS = 256          /* edits of a list, or of a group */
};

/* Sorts of tokens. */
enum {
    SHRIKE_START = 1,
    SHRIKE_END = 2,
    SHRIKE_TEXT = 3,
    SHRIKE_ATTRIBUTE = 4,
    SHRIKE_VALUE = 5,
    SHRIKE_SORTS = 8 /* a token is number * SHRIKE_SORTS + sort */
};

/* Tokens, and their parts. */
#define SHRIKE_TOKEN(sort, number) ((uint32_t)(number) * SHRIKE_SORTS + (uint32_t)(sort))
#define SHRIKE_START_TOKEN(number) SHRIKE_TOKEN(SHRIKE_START, number)
#define SHRIKE_END_TOKEN SHRIKE_TOKEN(SHRIKE_END, 0)
#define SHRIKE_TEXT_TOKEN(number) SHRIKE_TOKEN(SHRIKE_TEXT, number)
#define SHRIKE_ATTRIBUTE_TOKEN(number) SHRIKE_TOKEN(SHRIKE_ATTRIBUTE, number)
#define SHRIKE_VALUE_TOKEN(number) SHRIKE_TOKEN(SHRIKE_VALUE, number)
#define SHRIKE_SORT(token) ((uint32_t)(token) % SHRIKE_SORTS)
#define SHRIKE_NUMBER(token) ((uint32_t)(token) / SHRIKE_SORTS)

/* Kinds of elements. */
enum {
    SHRIKE_EMPTY = 0,
    SHRIKE_TEXT_ONLY = 1,
    SHRIKE_MODEL = 2
};

/* Symbols of a model. The element e is SHRIKE_NAMED + e. */
enum {
    SHRIKE_SEQUENCE = 0,
    SHRIKE_CHOICE = 1,
    SHRIKE_OPTIONAL = 2,
    SHRIKE_ZERO_OR_MORE = 3,
    SHRIKE_ONE_OR_MORE = 4,
    SHRIKE_NAMED = 5
};

/* Kinds of attributes. */
enum {
    SHRIKE_CDATA = 0,
    SHRIKE_ID = 1,
    SHRIKE_IDREF = 2,
    SHRIKE_IDREFS = 3
};

/* Statuses of attributes. */
enum {
    SHRIKE_REQUIRED = 0,
    SHRIKE_IMPLIED = 1,
    SHRIKE_FIXED = 2
};

/* The table: its words (of 64 bits: 53,400 bytes), those of a block, where the first block begins, the places in a block; where the count of
 * fixed attributes stands, where their entries begin, and the words of an entry. */
enum {
    SHRIKE_TABLE_WORDS = 6675,
    SHRIKE_BLOCK_WORDS = 138,
    SHRIKE_BLOCKS_AT = 2,
    SHRIKE_KIND_AT = 0,
    SHRIKE_ALLOWED_AT = 1,
    SHRIKE_REQUIRED_AT = 2,
    SHRIKE_ID_AT = 3,
    SHRIKE_IDREF_AT = 4,
    SHRIKE_IDREFS_AT = 5,
    SHRIKE_COUNT_AT = 6,
    SHRIKE_NO_CHILD_AT = 7,
    SHRIKE_FIRST_AT = 8,
    SHRIKE_LAST_AT = 9,
    SHRIKE_NAMES_AT = 10,
    SHRIKE_FOLLOW_AT = 74,
    SHRIKE_FIXED_COUNT_AT = 6626,
    SHRIKE_FIXED_AT = 6627,
    SHRIKE_FIXED_WORDS = 3
};

/* The places of shrike_compare's sequence buffer, at least (of 32 bits: 17,160 bytes). A sequence that is lost has fewer names. */
enum {
    SHRIKE_SEQUENCE_PLACES = 4290
};

/* The places of counts: one for each element that a schema can have. */
enum {
    SHRIKE_COUNT_PLACES = 48
};

/* Answer numbers. */
enum {
    SHRIKE_DONE = 0,
    SHRIKE_BROKEN = 1,
    SHRIKE_SCHEMA = 2,
    SHRIKE_AMBIGUOUS = 3,
    SHRIKE_SHAPE = 4,
    SHRIKE_ROOM = 5,
    SHRIKE_PLACE = 6,
    SHRIKE_NAME = 7,
    SHRIKE_ATTRIBUTES = 8,
    SHRIKE_CONTENT = 9,
    SHRIKE_ROOT = 10,
    SHRIKE_ID_TWICE = 11,
    SHRIKE_NO_ID = 12,
    SHRIKE_TABLE = 13,
    SHRIKE_DTD_TEXT = 14,
    SHRIKE_COUNTS = 15,
    SHRIKE_NOT_COMPARED = 16
};

/* Operations. */
enum {
    SHRIKE_INSERT = 1,
    SHRIKE_REMOVE = 2,
    SHRIKE_REPLACE = 3,
    SHRIKE_SET = 4,
    SHRIKE_DROP = 5
};

/* An answer number in words. Never NULL. */
static inline const char *shrike_words(uint32_t number) {
    switch (number) {
    case SHRIKE_DONE: return "valid, or done";
    case SHRIKE_BROKEN: return "broken number";
    case SHRIKE_SCHEMA: return "schema value, form or limit";
    case SHRIKE_AMBIGUOUS: return "ambiguous model";
    case SHRIKE_SHAPE: return "no shape, or bad piece";
    case SHRIKE_ROOM: return "too large, or no room";
    case SHRIKE_PLACE: return "operation or place";
    case SHRIKE_NAME: return "name";
    case SHRIKE_ATTRIBUTES: return "attributes";
    case SHRIKE_CONTENT: return "content";
    case SHRIKE_ROOT: return "root";
    case SHRIKE_ID_TWICE: return "ID twice";
    case SHRIKE_NO_ID: return "reference to none";
    case SHRIKE_TABLE: return "table";
    case SHRIKE_DTD_TEXT: return "DTD text";
    case SHRIKE_COUNTS: return "counts";
    case SHRIKE_NOT_COMPARED: return "kind not compared";
    default: return "unknown answer";
    }
}

/* Whether a library of a version serves a program that is compiled with this header: 1 or 0. */
static inline int shrike_serves(uint32_t version) {
    return version / 1000000 == SHRIKE_VERSION / 1000000 && version / 1000 >= SHRIKE_VERSION / 1000;
}

/* The answer of shrike_read, shrike_write, shrike_import, shrike_names and shrike_elements. count: the tokens read, the bytes written, or the
 * elements; 0 when refused. */
typedef struct {
    uint32_t number, count;
} shrike_count;

/* The answer of shrike_import_spot. offset: of a byte in the text, from 0, or the text's length. A text that is taken gives 0 for both. */
typedef struct {
    uint32_t number;
    uint64_t offset;
} shrike_spot;

/* The answer of shrike_check. */
typedef struct {
    uint32_t number, place;
} shrike_verdict;

/* The answer of shrike_edit. used: the document's length after the call. change: the new length less the old, negative when tokens went.
 * children: how many children were looked at, as shrike_edit says. A refusal gives the length that was handed in, and 0 for change and
 * children. */
typedef struct {
    uint32_t number, place;
    uint64_t used;
    int32_t change;
    uint32_t children;
} shrike_answer;

/* The answer of shrike_list. last: the answer of the last edit that was run; its `used` is the document's length now, its change and children
 * are that edit's alone. done: how many edits were done; a refused one is not counted. */
typedef struct {
    shrike_answer last;
    uint32_t done;
} shrike_listed;

/* The answer of shrike_group. used, change: as in shrike_answer, of the whole group. which: the edit that was refused, from 1; 0 if none
 * was. */
typedef struct {
    uint32_t number, place;
    uint64_t used;
    int32_t change;
    uint32_t which;
} shrike_grouped;

/* The answer of shrike_compare. takes_all: 1 if the new table takes all that the old one takes, else 0. length: the names of the sequence
 * that is lost; 0 if none is. A refusal gives 0 for both. */
typedef struct {
    uint32_t number, takes_all, length;
} shrike_compared;

/* The library's version: major * 1,000,000 + minor * 1,000 + patch. */
uint32_t shrike_version(void);

/* Reads the document file `file` into the first places of `tokens`; the places behind keep their contents. The tree is not judged, and an
 * empty file is zero tokens.
 *
 * From the front, the first of these decides: a broken number (1); a number for which there is no place, in `tokens` or past 8,192 (5). */
shrike_count shrike_read(const uint8_t *file, size_t file_len, uint32_t *tokens, size_t room);

/* Writes the `n` tokens into the first bytes of `file`; the bytes behind keep their contents. The tree is not judged: any numbers are
 * written, those of a schema file too.
 *
 * Order: over 8,192 tokens (5); a token over 2,097,151 (4); too little room (5). SHRIKE_MOST_BYTES bytes are always enough. */
shrike_count shrike_write(const uint32_t *tokens, size_t n, uint8_t *file, size_t room);

/* Writes the schema file of the DTD text into the first bytes of `file`; the bytes behind keep their contents.
 *
 * Order: the text (14 and 2, as DTD TEXTS above has them); too little room (5). SHRIKE_MOST_SCHEMA_FILE bytes are always enough. */
shrike_count shrike_import(const uint8_t *text, size_t n, uint8_t *file, size_t room);

/* Writes the names of the DTD text into the first bytes of `names`, each ended by byte 10: those of the elements by number, then those of the
 * attributes by number. The bytes behind keep their contents.
 *
 * Order: the text (14 and 2); too little room, or over 4,294,967,295 bytes (5). Each name stands in the text with white space behind it, so
 * that `n` bytes are always enough. */
shrike_count shrike_names(const uint8_t *text, size_t n, uint8_t *names, size_t room);

/* Where the DTD text is refused, and with which number: that of shrike_import and shrike_names, but for their 5. A host that counts the
 * bytes 10 before the offset can say line and column. */
shrike_spot shrike_import_spot(const uint8_t *text, size_t n);

/* Translates the schema file `file` to a table, and answers a number. `words` is SHRIKE_TABLE_WORDS.
 *
 * The numbers of a schema file: the number of elements E, 1 to 48; the root, below E; then for each element 0 to E-1:
 *   - its kind: 0 empty (SHRIKE_EMPTY, and so on), 1 text only (no text or one), 2 a content model;
 *   - for kind 2 the count of symbols, 1 to 255, and the symbols: 0 sequence and 1 choice, each before two expressions; 2 optional, 3 zero
 *     or more and 4 one or more, each before one expression; 5+e the element e, below 5+E. They are exactly one expression, in which at
 *     most 64 names occur;
 *   - the count of attributes, 0 to 64, and for each: its number, 0 to 63, strictly rising; its kind, 0 CDATA, 1 ID, 2 IDREF, 3 IDREFS; its
 *     status, 0 required, 1 implied, 2 fixed; and behind status 2 the number of its value, 0 to 65,535. At most one is an ID. A fixed one is
 *     CDATA, and there are at most 16 in the schema.
 *
 * A fixed attribute may be absent. If it is present, it has that value.
 *
 * A model is ambiguous if a child could be meant by two different occurrences of its name, as in (a?, a).
 *
 * Order: `words` (13); then the file from the front, each number's form (1, also where the file ends and a number is due) before its value
 * (2, for status 2 also if the kind is not CDATA or there are 16 before); after a model's symbols, whether they are one expression of at
 * most 64 names (2), then ambiguity (3); bytes left at the end (2). */
uint32_t shrike_translate(const uint8_t *file, size_t file_len, uint64_t *table, size_t words);

/* Checks the document in the first `used` places of `doc`. Valid: `counts` holds how many elements of each name it has, and 0 for names of E
 * and above. Not valid: `counts` keeps its contents.
 *
 * Order: the table (13); shape, and `used` over `room` (4); the root's name (10); then each element by rising place: its attributes (8: each
 * one allowed, all required ones present, one value each unless IDREFS, a fixed one's value the fixed one), then its content (9: an empty
 * element has no child and no text, a text-only one has no text or one and no child, one with a model has no text and children that the
 * model describes); then an ID that stands twice (11); then a reference to no ID (12). */
shrike_verdict shrike_check(const uint64_t *table, size_t words, const uint32_t *doc, size_t room, uint64_t used,
                            int32_t *counts);

/* Edits the document in the first `used` places of `doc`, if the edited document keeps to the schema at what the edit touches. From a valid
 * document, an edit is done only if the edited document is valid.
 *
 *   1 insert   the piece, one element or one text, goes before the token at `place`: a start, a text or an end, and not place 0
 *   2 remove   the element or the text at `place` goes; not place 0. The piece is empty
 *   3 replace  the piece, one element or one text, takes the place of the element or the text at `place`; at place 0 it is an element
 *   4 set      the piece, one attribute and its values, is added to the element that starts at `place`, or takes the place of the values there
 *   5 drop     the piece is one attribute token: that attribute of the element that starts at `place` goes, with its values
 *
 * Done: `doc` holds the edited document, then 0 up to the old length; `back` holds the edit that takes this one back. In both, later places
 * keep their contents. `counts` has moved by the elements that came less those that went. Refused: nothing is written to any of them.
 *
 * What stands in `back` is an operation, the same place, the number of tokens in a piece, and the piece: 3 places and those of the piece.
 * SHRIKE_MOST_BACK places are always enough. An edit is taken back
 *
 *   1 insert   by 2 remove
 *   2 remove   by 1 insert; the piece is what went
 *   3 replace  by 3 replace; the piece is what went
 *   4 set      by 5 drop, if the attribute was added; else by 4 set, and the piece is what went, also where the values are the same ones
 *   5 drop     by 4 set; the piece is what went
 *
 * So the step back is
 *
 *     shrike_edit(table, words, doc, room, used, back[0], back[1], back + 3, back[2], other, SHRIKE_MOST_BACK, counts)
 *
 * with the `used` that was answered, and with another buffer for the edit that takes the step back: `back` overlaps neither `doc` nor
 * `piece`. If the document was valid before an edit that was done, and the counts true, the step back from it is always done in the same
 * `doc`, if `other` has room for what is written there, and gives back every token of the document, its length and its counts. So a run of
 * edits is taken back to the first document, the last one that was done first. A step back from a step back makes the edit again.
 *
 * What the edit cost is told by `children`: the children and texts of the parent (for set and drop of the element itself) in the edited
 * document, plus those of every element in the piece. A replaced root has no parent, which counts 0; elements that went do not count. It is
 * never above the first of these plus the piece's tokens.
 *
 * Order: the table (13); shape, and `used` over `room` (4); operation (6); the piece (4), which also has at most 8,192 tokens and is at most
 * 64 deep by itself; `place` (6); the result over 8,192 tokens, over 64 deep or over `room` (5); `back_room` below what is to be written
 * there (5); a count that would be below 0 or above 8,192 (15); then the edited document: the root's name (10); at touched elements, by
 * rising place, the name (7), attributes (8) and content (9); IDs (11); references (12). Touched are the parent (for set and drop the
 * element itself) and all elements of the piece. Places are those of the edited document. */
shrike_answer shrike_edit(const uint64_t *table, size_t words, uint32_t *doc, size_t room, uint64_t used, uint32_t operation,
                          uint64_t place, const uint32_t *piece, size_t n, uint32_t *back, size_t back_room, int32_t *counts);

/* Makes the edits of a list one after another: a script step in one call. It ends at the first edit that is refused; what was done before
 * stands. Document, counts, last answer and number of edits done are those of single calls of shrike_edit, each with the `used` that the one
 * before answered and with room for what takes it back. The table and the document's shape are tested once, so that a list costs less than
 * its single calls.
 *
 * The `n` numbers of `list` are 1 to 256 edits, end to end, each of them as shrike_edit writes one to `back`: an operation, a place, the
 * number of tokens in a piece, and the piece. A place is one of the document as the edits before it left it.
 *
 * Behind the document stands 0 up to the longest that it was, on the way or at first; later places of `doc` keep their contents. No step back
 * is written: a host that is to take a list back keeps a copy of the document, or makes single calls.
 *
 * Order: the list from the front, before any edit is run: empty, or it ends inside an edit, also where a piece has fewer tokens than it says
 * (4); a 257th edit begun (5), so that 256 edits and anything behind them are 5. Then nothing is written, and `last` has the number, the
 * `used` that was given, and 0 for the rest. Then the edits, each in the order of shrike_edit, from the table (13) and shape (4) on. A piece
 * over 8,192 tokens that is all there is its edit's 4. */
shrike_listed shrike_list(const uint64_t *table, size_t words, uint32_t *doc, size_t room, uint64_t used, const uint32_t *list, size_t n,
                          int32_t *counts);

/* Makes the edits of a list as one, where each alone would not keep to the schema: a rename changes an ID and its references. Each edit is
 * tested for form, place and size alone, on what those before it made; only the last document is judged, whole. From a valid document a group
 * of edits that pass these tests is done exactly if the last document is valid.
 *
 * The list is 1 to 256 edits, as shrike_list has it. So the small shade's panel 20 becomes 21, with the use that refers to it, by
 *
 *     4 3 2 12 173    4 10 2 20 173
 *
 * The edits are worked on `second`, which has at least `room` places; what it holds before is of no account. Once an edit has begun, it holds
 * the last document reached, then 0 up to the longest reached, the starting one included; later places keep their contents.
 *
 * Done: `doc` holds the last document, then 0 up to the old length; later places keep their contents. Refused: nothing is written to `doc`.
 * A group carries no counts along: after one that is done, a check writes them before the next edit or list. No step back is written: a host
 * that is to take a group back keeps a copy of the document.
 *
 * Order: the table (13); shape, and `used` over `room` (4); the list, as shrike_list has it (4 and 5); `second_room` below `room` (5); all
 * this before any edit. Then the first edit that is refused, with `which`, and place 0: operation (6), the piece (4), `place` (6), the result
 * over 8,192 tokens, over 64 deep or over `room` (5). Then the last document with its place, in the order of shrike_check: the root's name
 * (10), attributes (8) and content (9), IDs (11), references (12). */
shrike_grouped shrike_group(const uint64_t *table, size_t words, uint32_t *doc, size_t room, uint64_t used, const uint32_t *list, size_t n,
                            uint32_t *second, size_t second_room);

/* How many elements of a name the document has, by its counts: 0 for a name of E and above, whatever the counts hold there.
 *
 * Order: the table (13); any of the counts below 0 or above 8,192 (15). */
shrike_count shrike_elements(const uint64_t *table, size_t words, const int32_t *counts, uint32_t name);

/* Compares the content of an element in two tables: does the new one take every sequence of children that the old one takes?
 *
 * If it does, takes_all is 1, length is 0 and nothing is written. If not, takes_all is 0, and the first `length` places of `sequence` hold
 * the shortest sequence that would be lost, as numbers of elements; of several that are as short, the lowest by the numbers from the left.
 * Length 0 with takes_all 0 says that having no child at all is lost. The places behind keep their contents.
 *
 * The numbers of elements are those of the old table, and are taken to mean the same in both. Only the element's own content is compared,
 * not that of its children, and not its attributes. An EMPTY element takes the sequence of no children alone. A name that the new table
 * does not have, it does not take.
 *
 * Order: the tables, the old one first (13); `element` not below the number of elements of both (6); an element that is neither EMPTY nor of
 * a content model, in either table (16); `room` below SHRIKE_SEQUENCE_PLACES (5), also where nothing would be written. */
shrike_compared shrike_compare(const uint64_t *old_table, size_t old_words, const uint64_t *new_table, size_t new_words, uint32_t element,
                               uint32_t *sequence, size_t room);

#ifdef __cplusplus
}
#endif

#endif
