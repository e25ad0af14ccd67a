/* Tests of the library for C: every call, every status, buffers exact or too short, empty inputs with and without a
 * pointer, the layout of the structs, how much memory a call takes, and each request for memory refused in turn. What a
 * call is given, and what it writes to, ends right before memory that can't be touched, or begins right after such.
 *
 * The test hands out the library's memory itself, and needs nothing but dotenvy.h and the C library of Linux. With
 * SHIPPED it is linked to bindings/out/libdotenvy.a, whose requests come by malloc: `--wrap` of the linker leads them
 * here. With the argument `layout` it prints the layout of the structs instead. The last line is `N passed, M failed`.
 */
#include "dotenvy.h"

/* Of the C library: declared here, so that the toolchain's clang, which has no headers, can compile this. */
int printf(const char *format, ...);
void *malloc(size_t size);
void *realloc(void *block, size_t size);
void free(void *block);
size_t malloc_usable_size(void *block);
void *memset(void *to, int byte, size_t size);
void *memcpy(void *to, const void *from, size_t size);
int memcmp(const void *a, const void *b, size_t size);
size_t strlen(const char *text);
int strcmp(const char *a, const char *b);
void *mmap(void *at, size_t size, int protection, int flags, int file, long from);
int mprotect(void *at, size_t size, int protection);
int *__errno_location(void);
void abort(void);

static size_t requests;  /* for memory, so far */
static size_t refuse_at; /* the number of the request that is refused, from 1; 0 refuses none */
static size_t blocks;    /* that are not given back */
static size_t held;      /* bytes of these blocks */
static size_t most_held; /* at any time */

enum { OTHER_ERROR = 75, OUT_OF_MEMORY = 12 }; /* values of errno */

static bool is_refused(void) {
    if (++requests != refuse_at) return false;
    *__errno_location() = OUT_OF_MEMORY;
    return true;
}

/* Whether the last call had a request refused. */
static bool was_refused(void) { return refuse_at != 0 && requests >= refuse_at; }

static void *took(void *block) {
    if (!block) abort();
    blocks++;
    held += malloc_usable_size(block);
    if (held > most_held) most_held = held;
    return block;
}

static void gave_back(void *block) {
    blocks--;
    held -= malloc_usable_size(block);
}

#ifdef SHIPPED
void *__real_malloc(size_t size);
void *__real_realloc(void *block, size_t size);
void __real_free(void *block);

void *__wrap_malloc(size_t size) { return is_refused() ? NULL : took(__real_malloc(size)); }

void *__wrap_realloc(void *old, size_t size) {
    if (is_refused()) return NULL;
    gave_back(old);
    return took(__real_realloc(old, size));
}

void __wrap_free(void *block) {
    gave_back(block);
    __real_free(block);
}
#else
struct tried {
    bool ok;
    uint8_t *block;
};

static uint8_t nothing;

struct tried rattle_alloc(size_t size, size_t alignment) {
    if (is_refused()) return (struct tried){false, &nothing};
    return (struct tried){true, took(malloc(size ? size : alignment))};
}

struct tried rattle_realloc(uint8_t *old, size_t kept, size_t size, size_t alignment) {
    (void)kept;
    if (is_refused()) return (struct tried){false, &nothing};
    gave_back(old);
    return (struct tried){true, took(realloc(old, size ? size : alignment))};
}

void rattle_dealloc(uint8_t *block) {
    gave_back(block);
    free(block);
}
#endif

static unsigned passed, failed;

static void check(bool holds, const char *what, int line) {
    if (holds) {
        passed++;
    } else {
        failed++;
        printf("FAILED at line %d: %s\n", line, what);
    }
}
#define CHECK(condition) check((condition), #condition, __LINE__)

enum { PAGE = 4096, ROOM = 2 * PAGE, BUFFER = 4096, ITEMS = 64, WARNINGS = 16, UNWRITTEN = 0xA5 };

/* Room between two pages that can't be touched. */
static uint8_t *new_room(void) {
    enum { NO_ACCESS = 0, READ_AND_WRITE = 3, PRIVATE_ANONYMOUS = 0x22 };
    uint8_t *pages = mmap(NULL, ROOM + 2 * PAGE, NO_ACCESS, PRIVATE_ANONYMOUS, -1, 0);
    if (pages == (uint8_t *)-1 || mprotect(pages + PAGE, ROOM, READ_AND_WRITE) != 0) abort();
    return pages + PAGE;
}

/* What the inputs of a call are copied to, what it writes to, and where the struct is that it answers by. */
static uint8_t *first_room, *second_room, *third_room, *out_room, *records_room, *answer_room;
static uint8_t blank_room[ROOM]; /* what a room holds in which nothing is written */

/* Where in a room its bytes are, and whether an empty input, or an empty buffer, is NULL. */
static bool are_first, empty_is_null;

static uint8_t *out;                     /* where the buffer of the last call begins */
static struct dotenvy_item *items;       /* its records, if they are items */
static struct dotenvy_warning *warnings; /* its records, if they are warnings */

static void make_rooms(void) {
    first_room = new_room();
    second_room = new_room();
    third_room = new_room();
    out_room = new_room();
    records_room = new_room();
    answer_room = new_room();
    memset(blank_room, UNWRITTEN, ROOM);
}

/* The first or last bytes of a room. */
static void *edge_of(uint8_t *room, size_t size) { return are_first ? room : room + ROOM - size; }

/* The same; or NULL for none, if that is asked for. */
static void *edge_or_null(uint8_t *room, size_t size) {
    return size == 0 && empty_is_null ? NULL : edge_of(room, size);
}

static void clear(size_t out_len, size_t items_len, size_t warnings_len) {
    memset(out_room, UNWRITTEN, ROOM);
    memset(records_room, UNWRITTEN, ROOM);
    memset(answer_room, UNWRITTEN, ROOM);
    out = edge_of(out_room, out_len);
    items = edge_of(records_room, items_len * sizeof items[0]);
    warnings = edge_of(records_room, warnings_len * sizeof warnings[0]);
    *__errno_location() = OTHER_ERROR;
}

/* Whether none of a room was written but these bytes. */
static bool only_written(const uint8_t *room, const void *from, size_t size) {
    const uint8_t *first = from, *after = first + size;
    return memcmp(room, blank_room, (size_t)(first - room)) == 0
           && memcmp(after, blank_room, (size_t)(room + ROOM - after)) == 0;
}

/* Whether nothing was written but the bytes of `out` before this one. */
static bool untouched_from(size_t at) { return only_written(out_room, out, at); }

/* Whether no record was written but the items, or the warnings, before this one. */
static bool no_items_from(size_t at) { return only_written(records_room, items, at * sizeof items[0]); }
static bool no_warnings_from(size_t at) { return only_written(records_room, warnings, at * sizeof warnings[0]); }

static bool is_at(size_t at, const char *bytes, size_t length) { return memcmp(out + at, bytes, length) == 0; }

/* Whether errno is as it was before the call, or as the failed request left it. */
static bool errno_is_kept(void) { return *__errno_location() == (was_refused() ? OUT_OF_MEMORY : OTHER_ERROR); }

static uint64_t number_at(const void *from, size_t at, size_t size) {
    uint64_t number = 0;
    memcpy(&number, (const uint8_t *)from + at, size);
    return number;
}

/* What holds of each call that answers by a struct: its first field is the status that is returned, the last one is 0,
 * and nothing is written beside it. */
static void check_answer(uint32_t status, const void *answer, size_t size) {
    CHECK(status == number_at(answer, 0, 4));
    CHECK(number_at(answer, size - 16, 8) == 0 && number_at(answer, size - 8, 8) == 0);
    CHECK(only_written(answer_room, answer, size) && errno_is_kept());
}

/* A text with its length, which may have NULs in it. */
struct bytes {
    const char *at;
    size_t length;
};
#define BYTES_OF(literal) {literal, sizeof(literal) - 1}
#define BYTES(literal) ((struct bytes)BYTES_OF(literal))

/* A text at an edge of a room; or NULL for an empty one, if that is asked for. */
static const void *given(uint8_t *room, struct bytes text) {
    void *at = edge_or_null(room, text.length);
    if (at) memcpy(at, text.at, text.length);
    return at;
}

static struct dotenvy_answer load(struct bytes file, struct bytes block, uint32_t options, size_t out_len) {
    clear(out_len, 0, 0);
    struct dotenvy_answer *answer = edge_of(answer_room, sizeof *answer);
    uint32_t status = dotenvy_load(given(first_room, file), file.length, given(second_room, block), block.length,
                                   options, answer, edge_or_null(out_room, out_len), out_len);
    check_answer(status, answer, sizeof *answer);
    CHECK(no_items_from(0));
    return *answer;
}

static struct dotenvy_counts list(struct bytes file, struct bytes block, uint32_t options, size_t items_len,
                                  size_t out_len) {
    clear(out_len, items_len, 0);
    struct dotenvy_counts *counts = edge_of(answer_room, sizeof *counts);
    uint32_t status = dotenvy_items(given(first_room, file), file.length, given(second_room, block), block.length,
                                    options, counts, edge_or_null(records_room, items_len * sizeof items[0]), items_len,
                                    edge_or_null(out_room, out_len), out_len);
    check_answer(status, counts, sizeof *counts);
    return *counts;
}

static struct dotenvy_text write_pair(struct bytes key, struct bytes value, uint32_t options, size_t out_len) {
    clear(out_len, 0, 0);
    struct dotenvy_text *text = edge_of(answer_room, sizeof *text);
    uint32_t status = dotenvy_write(given(first_room, key), key.length, given(second_room, value), value.length,
                                    options, text, edge_or_null(out_room, out_len), out_len);
    check_answer(status, text, sizeof *text);
    CHECK(no_items_from(0));
    return *text;
}

/* A pair that is written so; with an ample buffer, with an exact one, with one a byte too short, and with none. */
static void writes(struct bytes key, struct bytes value, struct bytes line, int at_line) {
    for (size_t more = 2; more-- > 0;) {
        struct dotenvy_text text = write_pair(key, value, 0, line.length + more * 9);
        check(text.status == DOTENVY_OK && text.fits && text.text_len == line.length, "it fits", at_line);
        check(is_at(0, line.at, line.length) && untouched_from(line.length), "the line", at_line);
    }
    const size_t too_short[] = {line.length - 1, 0};
    for (size_t i = 0; i < 2; i++) {
        struct dotenvy_text text = write_pair(key, value, 0, too_short[i]);
        check(text.status == DOTENVY_OK && !text.fits && text.text_len == line.length, "the length is told", at_line);
        check(untouched_from(0), "nothing is written", at_line);
    }
}
#define WRITES(key, value, line) writes(BYTES(key), BYTES(value), BYTES(line), __LINE__)

/* A pair that is not written, for this reason. */
static void unwritable(struct bytes key, struct bytes value, uint32_t options, uint32_t status, int line) {
    struct dotenvy_text text = write_pair(key, value, options, BUFFER);
    check(text.status == status && !text.fits && text.text_len == 0 && untouched_from(0), "nothing is written", line);
}
#define UNWRITABLE(key, value, options, status) unwritable(BYTES(key), BYTES(value), options, status, __LINE__)

/* Whether the first error among the items of a file is this one. */
static bool is_first_error(struct bytes file, struct bytes block, uint32_t options, uint32_t status, struct bytes text,
                           size_t index) {
    struct dotenvy_counts c = list(file, block, (options & DOTENVY_NEXT_DIALECT) | DOTENVY_DROP_MARK, ITEMS, BUFFER);
    size_t at = 0;
    while (at < c.items && items[at].status == DOTENVY_OK) at++;
    return at < c.items && items[at].status == status && items[at].index == index && items[at].key_len == 0
           && items[at].text_len == text.length && is_at(items[at].key_at, text.at, text.length);
}

/* A load that answers this, leaves this block, and tells this text; with an ample buffer, with an exact one, with one a
 * byte too short, and with none. */
static void loads(struct bytes file, struct bytes block, uint32_t options, uint32_t status, struct bytes left,
                  struct bytes text, size_t index, int line) {
    const size_t need = left.length + text.length, lengths[] = {BUFFER, need, need - 1, 0};
    for (size_t i = 0; i < (need > 0 ? 4 : 2); i++) {
        bool fits = lengths[i] >= need;
        struct dotenvy_answer a = load(file, block, options, lengths[i]);
        check(a.status == status, "the status", line);
        check(a.fits == fits, "whether it fits", line);
        check(a.index == index, "the index", line);
        check(a.block_len == left.length, "the length of the block", line);
        check(a.text_len == text.length, "the length of the text", line);
        if (fits) {
            check(is_at(0, left.at, left.length), "the block", line);
            check(is_at(left.length, text.at, text.length), "the text", line);
        }
        check(untouched_from(fits ? need : 0), "nothing else is written", line);
    }
    if (status == DOTENVY_LINE_PARSE || status == DOTENVY_NOT_UTF8)
        check(is_first_error(file, block, options, status, text, index), "the first error of the items", line);
}
#define LOADS(file, block, options, status, left, text, index) \
    loads(BYTES(file), BYTES(block), options, status, BYTES(left), BYTES(text), index, __LINE__)

/* A file that has so many items with so many bytes of texts; with one of the buffers too short, or none, with exact
 * ones, and then with ample ones, so that these can be looked at. */
static void lists(struct bytes file, struct bytes block, uint32_t options, size_t count, size_t text_len, int line) {
    const size_t lengths[][2] = {{0, 0}, {count - 1, text_len}, {count, text_len - 1}, {count, text_len},
                                 {ITEMS, BUFFER}};
    for (size_t i = 0; i < 5; i++) {
        if (lengths[i][0] > ITEMS || lengths[i][1] > BUFFER) continue; /* none is one less than nothing */
        bool fits = lengths[i][0] >= count && lengths[i][1] >= text_len;
        struct dotenvy_counts c = list(file, block, options, lengths[i][0], lengths[i][1]);
        check(c.status == DOTENVY_OK && c.fits == fits, "whether it fits", line);
        check(c.items == count && c.text_len == text_len, "the lengths are told", line);
        check(untouched_from(fits ? text_len : 0) && no_items_from(fits ? count : 0), "nothing else is written", line);
    }
}
#define LISTS(file, block, options, count, text_len) \
    lists(BYTES(file), BYTES(block), options, count, text_len, __LINE__)

/* What is asked of a file, and how. A call with no value unsets. */
struct edit_call {
    struct bytes file, key, value;
    bool sets;
    uint32_t options;
};
#define SET(file, key, value, options) ((struct edit_call){BYTES(file), BYTES(key), BYTES(value), true, options})
#define UNSET(file, key, options) ((struct edit_call){BYTES(file), BYTES(key), BYTES(""), false, options})

static struct dotenvy_edit edit(struct edit_call call, size_t warnings_len, size_t out_len) {
    clear(out_len, 0, warnings_len);
    const void *file = given(first_room, call.file), *key = given(second_room, call.key);
    struct dotenvy_warning *records = edge_or_null(records_room, warnings_len * sizeof warnings[0]);
    struct dotenvy_edit *told = edge_of(answer_room, sizeof *told);
    void *to = edge_or_null(out_room, out_len);
    uint32_t status =
        call.sets ? dotenvy_set(file, call.file.length, key, call.key.length, given(third_room, call.value),
                                call.value.length, call.options, told, records, warnings_len, to, out_len)
                  : dotenvy_unset(file, call.file.length, key, call.key.length, call.options, told, records,
                                  warnings_len, to, out_len);
    check_answer(status, told, sizeof *told);
    return *told;
}

/* An edit that leaves this file, and tells so many warnings with these names; with one of the buffers too short, or
 * none, with exact ones, and then with ample ones, so that these can be looked at. */
static void edits(struct edit_call call, struct bytes left, size_t count, struct bytes names, int line) {
    const size_t need = left.length + names.length;
    const size_t lengths[][2] = {{0, 0}, {count - 1, need}, {count, need - 1}, {count, need}, {WARNINGS, BUFFER}};
    for (size_t i = 0; i < 5; i++) {
        if (lengths[i][0] > WARNINGS || lengths[i][1] > BUFFER) continue; /* none is one less than nothing */
        bool fits = lengths[i][0] >= count && lengths[i][1] >= need;
        struct dotenvy_edit e = edit(call, lengths[i][0], lengths[i][1]);
        check(e.status == DOTENVY_OK && e.line == 0 && e.fits == fits, "whether it fits", line);
        check(e.file_len == left.length && e.warnings == count && e.names_len == names.length,
              "the new file and its warnings are told", line);
        if (fits) {
            check(is_at(0, left.at, left.length), "the new file", line);
            check(is_at(left.length, names.at, names.length), "the names after it", line);
        }
        check(untouched_from(fits ? need : 0) && no_warnings_from(fits ? count : 0), "nothing else is written", line);
    }
}
#define EDITS(call, left) edits(call, BYTES(left), 0, BYTES(""), __LINE__)
#define WARNS(call, left, count, names) edits(call, BYTES(left), count, BYTES(names), __LINE__)

/* An edit that is refused for this reason, at this line, and writes nothing. */
static void refuses(struct edit_call call, uint32_t status, uint64_t at_line, int line) {
    struct dotenvy_edit e = edit(call, WARNINGS, BUFFER);
    check(e.status == status && e.line == at_line, "the reason and its line", line);
    check(!e.fits && e.file_len == 0 && e.names_len == 0 && e.warnings == 0, "no lengths are told", line);
    check(untouched_from(0) && no_warnings_from(0), "nothing is written", line);
}
#define REFUSES(call, status, at_line) refuses(call, status, at_line, __LINE__)

/* Whether this warning is of this kind, has this name, and is on these lines. */
static bool warning_is(size_t at, uint32_t kind, const char *name, uint64_t first, uint64_t last) {
    const struct dotenvy_warning *warning = &warnings[at];
    return warning->kind == kind && warning->name_len == strlen(name)
           && is_at(warning->name_at, name, warning->name_len) && warning->first_line == first
           && warning->last_line == last && warning->reserved[0] == 0 && warning->reserved[1] == 0;
}

/* Whether this item has this status, key, text and index, and is on these lines. */
static bool item_is(size_t at, uint32_t status, const char *key, const char *text, size_t index, uint64_t first,
                    uint64_t last) {
    const struct dotenvy_item *item = &items[at];
    return item->status == status && item->key_len == strlen(key) && item->text_len == strlen(text)
           && is_at(item->key_at, key, item->key_len) && is_at(item->key_at + item->key_len, text, item->text_len)
           && item->index == index && item->first_line == first && item->last_line == last
           && item->reserved[0] == 0 && item->reserved[1] == 0;
}

/* Whether this item stands on these bytes of the file. */
static bool stands_on(size_t at, size_t file_at, size_t file_len) {
    return items[at].file_at == file_at && items[at].file_len == file_len;
}

/* How many bytes are whole statements. */
static size_t whole(struct bytes file, uint32_t options, uint32_t status) {
    clear(0, 0, 0);
    size_t *told = edge_of(answer_room, sizeof *told);
    CHECK(dotenvy_whole(given(first_room, file), file.length, options, told) == status);
    CHECK(only_written(answer_room, told, sizeof *told) && errno_is_kept() && untouched_from(0) && no_items_from(0));
    return *told;
}
#define WHOLE(file, options, count) CHECK(whole(BYTES(file), options, DOTENVY_OK) == (count))

static bool is_key(struct bytes text) {
    clear(0, 0, 0);
    bool is = dotenvy_is_key(given(first_room, text), text.length);
    CHECK(errno_is_kept());
    return is;
}

static void test_keys(void) {
    requests = 0;
    CHECK(is_key(BYTES("A.b")));
    CHECK(is_key(BYTES("_9")));
    CHECK(!is_key(BYTES("1A")));
    CHECK(!is_key(BYTES("A b")));
    CHECK(!is_key(BYTES("A\0")));
    CHECK(!is_key(BYTES("\xC3\xA9")));
    CHECK(!is_key(BYTES("\xFF")));
    CHECK(!is_key(BYTES("")));
    CHECK(dotenvy_version() == DOTENVY_VERSION && DOTENVY_VERSION == 1000000);
    CHECK(requests == 0);
}

/* The length of the text of a status, which is written to a buffer of this length, if it fits. */
static size_t status_text(uint32_t status, size_t out_len) {
    clear(out_len, 0, 0);
    size_t length = dotenvy_status_text(status, edge_or_null(out_room, out_len), out_len);
    CHECK(untouched_from(length <= out_len ? length : 0) && errno_is_kept());
    return length;
}

/* Each status has a text of its own, in ASCII, which 100 bytes hold; a number that is none has another one. */
static void test_status_texts(void) {
    enum { KNOWN = 23, LONGEST = 100 };
    static uint8_t texts[KNOWN + 1][LONGEST];
    memset(texts, 0, sizeof texts);
    requests = 0;
    for (uint32_t status = 0; status <= KNOWN; status++) {
        size_t length = status_text(status, 0);
        CHECK(0 < length && length <= LONGEST);
        CHECK(status_text(status, length - 1) == length && status_text(status, LONGEST) == length);
        CHECK(status_text(status, length) == length);
        for (size_t at = 0; at < length; at++) CHECK(out[at] >= ' ' && out[at] <= '~');
        memcpy(texts[status], out, length);
        for (uint32_t other = 0; other < status; other++) CHECK(memcmp(texts[status], texts[other], LONGEST) != 0);
    }
    CHECK(strcmp((char *)texts[DOTENVY_OK], "done") == 0);
    CHECK(strcmp((char *)texts[DOTENVY_ABSENT], "no line assigns the key") == 0);
    size_t length = status_text(0xFFFFFFFFu, LONGEST);
    CHECK(memcmp(out, texts[KNOWN], length) == 0);
    CHECK(requests == 0);
}

static void test_whole(void) {
    WHOLE("", 0, 0);
    WHOLE("A=1", 0, 0);
    WHOLE("\n#'\n \nA=", 0, 6);
    WHOLE("A=1\nB=x y\n\nC='\n", 0, 11);
    WHOLE("A=\\\nB=1 \nC=1 # '\nD", 0, 17);
    WHOLE("A='\n\xFF\nB=\"\nC='\n", 0, 6);
    WHOLE("A=1\nB='x\ny'", DOTENVY_NEXT_DIALECT, 4);
    /* A byte order mark; what it is before is a comment only without it. */
    WHOLE("\xEF\xBB\xBF" "A=1\n", 0, 7);
    WHOLE("\xEF\xBB\xBF" "A=1\n", DOTENVY_DROP_MARK, 7);
    WHOLE("\xEF\xBB\xBF", DOTENVY_DROP_MARK, 3);
    WHOLE("\xEF\xBB\xBF" "# it's\n", 0, 0);
    WHOLE("\xEF\xBB\xBF" "# it's\n", DOTENVY_DROP_MARK, 10);
    static const uint32_t bad[] = {1, 8, 16, 3, 0x80000000u, 0xFFFFFFFFu};
    for (size_t i = 0; i < sizeof bad / sizeof bad[0]; i++)
        CHECK(whole(BYTES("A=1\n"), bad[i], DOTENVY_BAD_OPTION) == 0);
}

static void test_writes(void) {
    WRITES("A", "1", "A=\"1\"\n");
    WRITES("A.b", "", "A.b=\"\"\n");
    WRITES("A", "\"it's\" \\ $HOME", "A=\"\\\"it's\\\" \\\\ \\$HOME\"\n");
    WRITES("A", "x\ny\r\0\xC3\xA9", "A=\"x\ny\r\0\xC3\xA9\"\n");
    UNWRITABLE("", "1", 0, DOTENVY_NO_KEY);
    UNWRITABLE("1A", "1", 0, DOTENVY_NO_KEY);
    UNWRITABLE("\xFF", "1", 0, DOTENVY_NO_KEY);
    UNWRITABLE("\xFF", "\xFF", 0, DOTENVY_NO_KEY);
    UNWRITABLE("A", "\xFF", 0, DOTENVY_NOT_UTF8);
    for (uint32_t bad = 1; bad != 0; bad <<= 1) UNWRITABLE("\xFF", "\xFF", bad, DOTENVY_BAD_OPTION);
    /* What is written is read back. */
    static const char value[] = "\"it's\" \\ $HOME ${HOME}\n # x";
    struct dotenvy_text text = write_pair(BYTES("A"), BYTES(value), 0, BUFFER);
    static char written[BUFFER];
    memcpy(written, out, text.text_len);
    struct bytes line = {written, text.text_len};
    struct dotenvy_counts c = list(line, BYTES("HOME=/root"), 0, ITEMS, BUFFER);
    CHECK(c.items == 1 && item_is(0, DOTENVY_OK, "A", value, 0, 1, 2));
}

static void test_loads(void) {
    LOADS("A=1\nB=$A\n", "", 0, DOTENVY_OK, "A=1\0B=1\0", "", 0);
    /* Which value counts, and what a name means meanwhile. */
    LOADS("A=1\nA=2\nB=$A\n", "", 0, DOTENVY_OK, "A=1\0B=1\0", "", 0);
    LOADS("A=1\nA=2\nB=$A\n", "", DOTENVY_OVERRIDE, DOTENVY_OK, "A=2\0B=2\0", "", 0);
    LOADS("A=1\n", "A=9", 0, DOTENVY_OK, "A=9\0", "", 0);
    LOADS("A=1\n", "A=9", DOTENVY_OVERRIDE, DOTENVY_OK, "A=1\0", "", 0);
    /* The two dialects. */
    LOADS("C=$A_B\n", "A_B=7\0A=5", 0, DOTENVY_OK, "A=5\0A_B=7\0C=5_B\0", "", 0);
    LOADS("C=$A_B\n", "A_B=7\0A=5", DOTENVY_NEXT_DIALECT, DOTENVY_OK, "A=5\0A_B=7\0C=7\0", "", 0);
    LOADS("A=1\nC=$A_B\n", "A_B=7\0A=5\0", DOTENVY_OVERRIDE | DOTENVY_NEXT_DIALECT, DOTENVY_OK,
          "A=1\0A_B=7\0C=7\0", "", 0);
    /* A byte order mark is dropped. */
    LOADS("\xEF\xBB\xBF" "A=1\n", "", 0, DOTENVY_OK, "A=1\0", "", 0);
    /* Each error; what is before it was loaded. */
    LOADS("B=$A\nC=x y\nD=1\n", "A=9", 0, DOTENVY_LINE_PARSE, "A=9\0B=9\0", "x y", 2);
    LOADS("A=1\nB=\xFF\n", "", 0, DOTENVY_NOT_UTF8, "A=1\0", "", 0);
    LOADS("A=1\nB=\"x\0y\"\nC=3\n", "", 0, DOTENVY_NUL, "A=1\0", "B", 0);
    LOADS("A=1\nB=\"x\0y\"\nC=3\n", "B=old", 0, DOTENVY_OK, "A=1\0B=old\0C=3\0", "", 0);
    LOADS("A=1\nB=\"x\0y\"\nC=3\n", "B=old", DOTENVY_OVERRIDE, DOTENVY_NUL, "A=1\0B=old\0", "B", 0);
    /* Empty inputs. */
    LOADS("", "", 0, DOTENVY_OK, "", "", 0);
    LOADS("", "A=1", 0, DOTENVY_OK, "A=1\0", "", 0);
    LOADS("A=1", "", 0, DOTENVY_OK, "A=1\0", "", 0);
    LOADS("x y", "", 0, DOTENVY_LINE_PARSE, "", "x y", 2);
    /* Blocks: with and without a last NUL, empty entries, what has no name or is no pair, twice the same name. */
    LOADS("", "B=2\0A=1", 0, DOTENVY_OK, "A=1\0B=2\0", "", 0);
    LOADS("", "B=2\0A=1\0", 0, DOTENVY_OK, "A=1\0B=2\0", "", 0);
    LOADS("", "\0\0B=2\0\0=x\0no pair\0C=a=b\0\xFF=1\0D=\xFF\0B=3\0 E=\0", 0, DOTENVY_OK, " E=\0B=2\0C=a=b\0", "", 0);
    /* A variable that isn't UTF-8 is left out: its name means nothing, and a file can declare it. */
    LOADS("A=x$D\n", "B=1\0D=\xFF", 0, DOTENVY_OK, "A=x\0B=1\0", "", 0);
    LOADS("D=2\nA=x$D\n", "D=\xFF\0B=1", 0, DOTENVY_OK, "A=x2\0B=1\0D=2\0", "", 0);
    /* What a load writes, the next one reads: twice the same. */
    LOADS("A=2\n", "A=1\0B=x=y\0", 0, DOTENVY_OK, "A=1\0B=x=y\0", "", 0);
}

/* Inputs may overlap: each is only read. */
static void test_shared_inputs(void) {
    static const char text[] = "A=1";
    struct dotenvy_answer answer;
    struct dotenvy_edit told;
    char to[8];
    CHECK(dotenvy_load(text, 3, text, 3, DOTENVY_OVERRIDE, &answer, to, sizeof to) == DOTENVY_OK);
    CHECK(answer.fits && answer.block_len == 4 && memcmp(to, "A=1", 4) == 0);
    CHECK(dotenvy_set(text, 3, text, 1, text, 1, 0, &told, NULL, 0, to, sizeof to) == DOTENVY_OK);
    CHECK(told.fits && told.file_len == 3 && memcmp(to, "A=A", 3) == 0);
}

static void test_refused_options(void) {
    static const uint32_t bad[] = {4, 8, 16, 5, 0x80000000u, 0xFFFFFFFFu};
    for (size_t i = 0; i < sizeof bad / sizeof bad[0]; i++) {
        struct dotenvy_answer a = load(BYTES("A=1\n"), BYTES(""), bad[i], BUFFER);
        CHECK(a.status == DOTENVY_BAD_OPTION && !a.fits && a.index == 0 && a.block_len == 0 && a.text_len == 0);
        CHECK(untouched_from(0));
    }
    static const uint32_t bad_of_items[] = {1, 8, 3, 17, 32, 0x80000000u, 0xFFFFFFFFu};
    for (size_t i = 0; i < sizeof bad_of_items / sizeof bad_of_items[0]; i++) {
        struct dotenvy_counts c = list(BYTES("A=1\n"), BYTES(""), bad_of_items[i], ITEMS, BUFFER);
        CHECK(c.status == DOTENVY_BAD_OPTION && !c.fits && c.items == 0 && c.text_len == 0);
        CHECK(untouched_from(0) && no_items_from(0));
    }
}

static void test_items(void) {
    size_t texts = 2 + 4 + 3 + 0 + 6 + 4 + 7; /* A1, B2.1, x y, nothing, A/root, Eu.v, open=' and its line feed */
    LISTS("# a comment\nA=1\nB=\"2\n${A}\"\nC=x y\nD=\xFF\nA=$HOME\nE=\"u\0v\"\nopen='\n", "HOME=/root", 0, 7, texts);
    CHECK(item_is(0, DOTENVY_OK, "A", "1", 0, 2, 2));
    CHECK(item_is(1, DOTENVY_OK, "B", "2\n1", 0, 3, 4));
    CHECK(item_is(2, DOTENVY_LINE_PARSE, "", "x y", 2, 5, 5));
    CHECK(item_is(3, DOTENVY_NOT_UTF8, "", "", 0, 6, 6));
    CHECK(item_is(4, DOTENVY_OK, "A", "/root", 0, 7, 7));
    CHECK(items[5].status == DOTENVY_OK && items[5].text_len == 3 && is_at(items[5].key_at, "Eu\0v", 4));
    CHECK(item_is(6, DOTENVY_LINE_PARSE, "", "open='\n", 7, 9, 9));
    CHECK(stands_on(0, 12, 4) && stands_on(1, 16, 11) && stands_on(2, 27, 6) && stands_on(3, 33, 4));
    CHECK(stands_on(4, 37, 8) && stands_on(5, 45, 8) && stands_on(6, 53, 7));
    /* Empty inputs need no buffer. */
    LISTS("", "", 0, 0, 0);
    LISTS("", "A=1", 0, 0, 0);
    LISTS("A=", "", 0, 1, 1);
    CHECK(item_is(0, DOTENVY_OK, "A", "", 0, 1, 1));
    LISTS("\xFF\n\xFF", "", 0, 2, 0);
    CHECK(item_is(0, DOTENVY_NOT_UTF8, "", "", 0, 1, 1) && item_is(1, DOTENVY_NOT_UTF8, "", "", 0, 2, 2));
}

/* The dialects, and the byte order mark. */
static void test_options_of_items(void) {
    LISTS("C=$A_B\n", "A=5\0A_B=7", 0, 1, 4);
    CHECK(item_is(0, DOTENVY_OK, "C", "5_B", 0, 1, 1));
    LISTS("C=$A_B\n", "A=5\0A_B=7", DOTENVY_NEXT_DIALECT, 1, 2);
    CHECK(item_is(0, DOTENVY_OK, "C", "7", 0, 1, 1));
    LISTS("\xEF\xBB\xBF" "A=1\n", "", 0, 1, 6);
    CHECK(item_is(0, DOTENVY_LINE_PARSE, "", "\xEF\xBB\xBF" "A=1", 0, 1, 1));
    LISTS("\xEF\xBB\xBF" "A=1\n", "", DOTENVY_DROP_MARK, 1, 2);
    CHECK(item_is(0, DOTENVY_OK, "A", "1", 0, 1, 1));
    LISTS("\xEF\xBB\xBF\xEF\xBB\xBF" "A=1\n", "", DOTENVY_DROP_MARK, 1, 6);
    CHECK(item_is(0, DOTENVY_LINE_PARSE, "", "\xEF\xBB\xBF" "A=1", 0, 1, 1));
    LISTS("A=1\n", "", DOTENVY_DROP_MARK | DOTENVY_NEXT_DIALECT, 1, 2);
    CHECK(item_is(0, DOTENVY_OK, "A", "1", 0, 1, 1));
    /* The bytes of an item are whole lines, with a byte order mark and a last line without its end. */
    LISTS("\xEF\xBB\xBF" "A=1\r\n\n\nB='\n\n' # x\nC=x y", "", DOTENVY_DROP_MARK, 3, 8);
    CHECK(stands_on(0, 0, 8) && stands_on(1, 10, 11) && stands_on(2, 21, 5));
}

/* A file of one pair of the key A, which has this text with DOTENVY_AS_WRITTEN. All else that is told of it is as
 * without this option. */
static void as_written(struct bytes file, uint32_t options, struct bytes text, int line) {
    const size_t after = offsetof(struct dotenvy_item, key_at); /* before it is padding */
    struct bytes block = BYTES("A=a\0B=bb");
    struct dotenvy_counts c = list(file, block, options, ITEMS, BUFFER);
    struct dotenvy_item plain = items[0];
    check(c.items == 1 && plain.status == DOTENVY_OK, "a pair", line);
    plain.text_len = text.length;
    lists(file, block, options | DOTENVY_AS_WRITTEN, 1, 1 + text.length, line);
    check(is_at(0, "A", 1) && is_at(1, text.at, text.length), "the key and the text", line);
    check(items[0].status == DOTENVY_OK && memcmp(&items[0].key_at, &plain.key_at, sizeof plain - after) == 0,
          "all else is as ever", line);
}
#define AS_WRITTEN(file, options, text) as_written(BYTES(file), options, BYTES(text), __LINE__)

static void test_as_written(void) {
    AS_WRITTEN("A=1\n", 0, "1");
    AS_WRITTEN("A=\n", 0, "");
    AS_WRITTEN("A= # $B\n", 0, "");
    /* Names stay as they are, whatever is around them. */
    AS_WRITTEN("A=$B\n", 0, "$B");
    AS_WRITTEN("A=${B}\n", 0, "${B}");
    AS_WRITTEN("A=${B:-b}\n", 0, "${B:-b}");
    AS_WRITTEN("A=x${B}y$A/$B$A\n", 0, "x${B}y$A/$B$A");
    AS_WRITTEN("export A = $B # $A\r\n", 0, "$B");
    AS_WRITTEN("A=$B", 0, "$B");
    AS_WRITTEN("A=$\n", 0, "$");
    AS_WRITTEN("A=\"$ ${}\"\n", 0, "$ ${}");
    AS_WRITTEN("A=$\xC3\xA9-\n", 0, "$\xC3\xA9-");
    /* Quotes are left out, and escapes are read. */
    AS_WRITTEN("A='$B \\$B'\n", 0, "$B \\$B");
    AS_WRITTEN("A=\"${B} c\"'d'\n", 0, "${B} cd");
    AS_WRITTEN("A=\\$B\\ \\'\\\\\n", 0, "$B '\\");
    AS_WRITTEN("A=\"\\$B\\n\\\"\"\n", 0, "$B\n\"");
    AS_WRITTEN("A=x\\\n", 0, "x");
    /* Over several lines, and after a byte order mark. */
    AS_WRITTEN("\n# c\nA=\"1\n$B\n\" # x\n", 0, "1\n$B\n");
    AS_WRITTEN("\xEF\xBB\xBF" "A=$B\n", DOTENVY_DROP_MARK, "$B");
    AS_WRITTEN("\xEF\xBB\xBF" "\nA=$B\n", DOTENVY_DROP_MARK, "$B");
    /* In the second dialect names are longer, and a quote ends one. */
    AS_WRITTEN("A=$B_A\n", 0, "$B_A");
    AS_WRITTEN("A=$B_A\n", DOTENVY_NEXT_DIALECT, "$B_A");
    AS_WRITTEN("A=\"$B\"\n", DOTENVY_NEXT_DIALECT, "$B");
    AS_WRITTEN("\xEF\xBB\xBF" "A=\"x$B\"\n", DOTENVY_NEXT_DIALECT | DOTENVY_DROP_MARK, "x$B");
}

/* Several items: each has its own line, and errors are as ever. */
static void test_items_as_written(void) {
    LISTS("A=1\nB=\"2\n${A}\"\nC=\"$A\"\nD=\xFF\nA=$B\nE=\"u\0$A \"\n\xEF\xBB\xBF" "F=$A\nopen='\n", "A=9",
          DOTENVY_AS_WRITTEN, 8, 2 + 7 + 4 + 0 + 3 + 6 + 7 + 7);
    CHECK(item_is(0, DOTENVY_OK, "A", "1", 0, 1, 1) && stands_on(0, 0, 4));
    CHECK(item_is(1, DOTENVY_OK, "B", "2\n${A}", 0, 2, 3) && stands_on(1, 4, 11));
    CHECK(item_is(2, DOTENVY_LINE_PARSE, "", "\"$A\"", 3, 4, 4) && stands_on(2, 15, 7));
    CHECK(item_is(3, DOTENVY_NOT_UTF8, "", "", 0, 5, 5) && stands_on(3, 22, 4));
    CHECK(item_is(4, DOTENVY_OK, "A", "$B", 0, 6, 6) && stands_on(4, 26, 5));
    CHECK(items[5].status == DOTENVY_OK && items[5].text_len == 5 && is_at(items[5].key_at, "Eu\0$A ", 6));
    CHECK(item_is(6, DOTENVY_LINE_PARSE, "", "\xEF\xBB\xBF" "F=$A", 0, 8, 8));
    CHECK(item_is(7, DOTENVY_LINE_PARSE, "", "open='\n", 7, 9, 9));
}

/* A file that is drawn: lines of the key K, with the names A and B in their values, each followed by no letter. */
static size_t draw_file(char *file, uint32_t *state) {
    static const char *const pieces[] = {"$A",   "${B}", "$A",   "${B}", "'", "\"", "\"", " ", "-",
                                         "\\n", "\\\\", "\\'", "#", "\t", "\r", "\nK="};
    enum { PIECES = sizeof pieces / sizeof pieces[0], MOST = 12 };
    size_t length = 2;
    memcpy(file, "K=", 2);
    for (size_t count = 0; count < MOST; count++) {
        *state = *state * 1664525u + 1013904223u;
        const char *piece = pieces[(*state >> 16) % PIECES];
        memcpy(file + length, piece, strlen(piece));
        length += strlen(piece);
    }
    file[length] = '\n';
    return length + 1;
}

/* Where each name stands for what is written for it, both ways tell the same: of each drawn file the same bytes. */
static void test_drawn_values(void) {
    static char file[64];
    static uint8_t texts[BUFFER];
    static struct dotenvy_item plain[ITEMS];
    struct bytes block = BYTES("A=$A\0B=${B}");
    uint32_t state = 1;
    size_t pairs = 0;
    bool same = true;
    for (size_t turn = 0; turn < 4000; turn++) {
        struct bytes drawn = {file, draw_file(file, &state)};
        uint32_t options = turn % 2 == 0 ? 0 : DOTENVY_NEXT_DIALECT;
        struct dotenvy_counts a = list(drawn, block, options, ITEMS, BUFFER);
        memcpy(plain, items, sizeof plain);
        memcpy(texts, out, BUFFER);
        struct dotenvy_counts b = list(drawn, block, options | DOTENVY_AS_WRITTEN, ITEMS, BUFFER);
        same = same && a.fits && b.fits && a.items == b.items && a.text_len == b.text_len
               && memcmp(texts, out, a.text_len) == 0;
        for (size_t at = 0; at < a.items; at++) {
            size_t after = offsetof(struct dotenvy_item, key_at); /* before it is padding */
            same = same && plain[at].status == items[at].status
                   && memcmp(&plain[at].key_at, &items[at].key_at, sizeof plain[at] - after) == 0;
            pairs += plain[at].status == DOTENVY_OK;
        }
    }
    CHECK(same);
    CHECK(pairs > 1000);
}

/* Whether this statement, by itself under a block, is told as this item of its file was, whose texts were these. */
static bool is_told_alone(struct bytes statement, struct bytes block, struct dotenvy_item item, const uint8_t *texts) {
    struct dotenvy_counts c = list(statement, block, 0, ITEMS, BUFFER);
    return c.items == 1 && items[0].status == item.status && items[0].index == item.index
           && items[0].key_len == item.key_len && items[0].text_len == item.text_len
           && memcmp(out, texts + item.key_at, c.text_len) == 0 && items[0].first_line == 1
           && items[0].last_line == item.last_line - item.first_line + 1 && items[0].file_at == 0;
}

/* A file tells the same statement by statement, each under a block that has the environment first, and then the last
 * value of each name, the newest before the older ones. */
static void test_statements_alone(void) {
    static const struct bytes file = BYTES_OF("A=1\nB=\"$A\n${E}\"\nA=2\nC=$A$B\n\nE=9\nx y\nD=$E'$A'\nA=$A$A\nF=$A$C");
    static const struct bytes environment = BYTES_OF("E=5\0");
    static uint8_t texts[BUFFER];
    static char block[BUFFER];
    struct dotenvy_item all[ITEMS];
    size_t count = list(file, environment, 0, ITEMS, BUFFER).items, at = BUFFER;
    memcpy(all, items, sizeof all);
    memcpy(texts, out, BUFFER);
    CHECK(count == 9 && item_is(3, DOTENVY_OK, "C", "21\n5", 0, 5, 5));
    CHECK(!is_told_alone((struct bytes){file.at + all[3].file_at, all[3].file_len}, environment, all[3], texts));
    for (size_t i = 0; i < count; i++) {
        char *start = block + at - environment.length;
        memcpy(start, environment.at, environment.length);
        CHECK(is_told_alone((struct bytes){file.at + all[i].file_at, all[i].file_len},
                            (struct bytes){start, BUFFER - at + environment.length}, all[i], texts));
        if (all[i].status != DOTENVY_OK) continue;
        at -= all[i].key_len + all[i].text_len + 2;
        memcpy(block + at, texts + all[i].key_at, all[i].key_len);
        block[at + all[i].key_len] = '=';
        memcpy(block + at + all[i].key_len + 1, texts + all[i].key_at + all[i].key_len, all[i].text_len);
        block[at + all[i].key_len + 1 + all[i].text_len] = '\0';
    }
}

static void test_sets(void) {
    EDITS(SET("A=1\n", "A", "2", 0), "A=2\n");
    EDITS(SET("", "A", "1", 0), "A=1\n");
    /* All but the value stays. */
    EDITS(SET("  export A = 1   # port\nB=2\n", "A", "2", 0), "  export A = 2   # port\nB=2\n");
    EDITS(SET("A=1\r\nB=2\r\n", "A", "2", 0), "A=2\r\nB=2\r\n");
    EDITS(SET("\xEF\xBB\xBF" "A=1\n", "A", "2", 0), "\xEF\xBB\xBF" "A=2\n");
    EDITS(SET("B=1\r\nC=2", "A", "3", 0), "B=1\r\nC=2\r\nA=3\r\n");
    EDITS(SET("A=#fff\n", "A", "#eee", 0), "A='#eee' #fff\n");
    EDITS(SET("A=1\nB=\"x\n", "A", "2", 0), "A=2\nB=\"x\n");
    /* The value that is there already, and the forms of others. */
    EDITS(SET("A='1'\n", "A", "1", 0), "A='1'\n");
    EDITS(SET("A=1\n", "A", "two words", 0), "A='two words'\n");
    EDITS(SET("A=1\n", "A", "it's \"x\"", 0), "A=\"it's \\\"x\\\"\"\n");
    EDITS(SET("A=1\n", "A", "", 0), "A=\n");
    EDITS(SET("A=1\n", "A", "\xC3\xA9", 0), "A='\xC3\xA9'\n");
    /* Portable: a line feed is one line, and two backslashes have no form. */
    EDITS(SET("A=1\n", "A", "x\ny", 0), "A='x\ny'\n");
    EDITS(SET("A=1\n", "A", "x\ny", DOTENVY_PORTABLE), "A=\"x\\ny\"\n");
    EDITS(SET("A=1\n", "A", "a\\\\b", 0), "A='a\\\\b'\n");
    REFUSES(SET("A=1\n", "A", "a\\\\b", DOTENVY_PORTABLE), DOTENVY_UNPORTABLE_BACKSLASHES, 0);
}

static void test_unsets(void) {
    EDITS(UNSET("# port\nA=1 # c\nB=2\n", "A", 0), "# port\nB=2\n");
    EDITS(UNSET("A=1", "A", 0), "");
    EDITS(UNSET("A=1\n\xEF\xBB\xBF" "B=2\n", "A", 0), "\n\xEF\xBB\xBF" "B=2\n");
    REFUSES(UNSET("B=1\n", "A", 0), DOTENVY_ABSENT, 0);
    REFUSES(UNSET("", "A", 0), DOTENVY_ABSENT, 0);
    REFUSES(UNSET("A=1  # it's\nB=it's\n", "A", 0), DOTENVY_LONG_COMMENT, 1);
    REFUSES(UNSET("B=1\nA=1 # \xE9\n", "A", 0), DOTENVY_UNREADABLE, 2);
}

/* Each reason, with its line. */
static void test_refused_edits(void) {
    REFUSES(SET("A=1\n", "1A", "2", 0), DOTENVY_NO_KEY, 0);
    REFUSES(SET("A=1\n", "", "2", 0), DOTENVY_NO_KEY, 0);
    REFUSES(SET("A=1\n", "\xFF", "2", 0), DOTENVY_NO_KEY, 0);
    REFUSES(SET("A=1\n", "\xFF", "\xFF", 0), DOTENVY_NO_KEY, 0);
    REFUSES(UNSET("A=1\n", "A B", 0), DOTENVY_NO_KEY, 0);
    REFUSES(UNSET("A=1\n", "\xFF", 0), DOTENVY_NO_KEY, 0);
    REFUSES(SET("A=1\n", "A", "\xFF", 0), DOTENVY_NOT_UTF8, 0);
    REFUSES(SET("A=1\n", "A", "x\0y", 0), DOTENVY_NUL, 0);
    REFUSES(SET("B=1\nC=\"x\n", "A", "1", 0), DOTENVY_QUOTE_OPEN, 2);
    REFUSES(SET("B=1\nC=x\\", "A", "1", 0), DOTENVY_END_OPEN, 2);
    REFUSES(SET("B=1\nC=x ", "A", "1", 0), DOTENVY_END_OPEN, 2);
    REFUSES(SET("B=1\nA=\"x\n", "A", "1", 0), DOTENVY_UNREADABLE, 2);
    REFUSES(SET("A=1 # \xE9\n", "A", "1", 0), DOTENVY_UNREADABLE, 1);
    REFUSES(SET("B=1\nA=$B  # it's\nC=it's\n", "A", "v", 0), DOTENVY_LONG_COMMENT, 2);
    REFUSES(SET("A=1\nA=2  # it's\nB=it's\n", "A", "3", 0), DOTENVY_LONG_COMMENT, 2);
    REFUSES(SET("\xEF\xBB\xBF" "A=1\n", "A", "2", DOTENVY_PORTABLE), DOTENVY_UNPORTABLE_MARK, 1);
    REFUSES(SET("A=1\n", "A", "x\ry", DOTENVY_PORTABLE), DOTENVY_UNPORTABLE_CARRIAGE_RETURN, 0);
    REFUSES(SET("A=1\n", "A", "it's $5", DOTENVY_PORTABLE), DOTENVY_UNPORTABLE_APOSTROPHE, 0);
    REFUSES(SET("A=1\n", "A", "x\n$y", DOTENVY_PORTABLE), DOTENVY_UNPORTABLE_LINE_FEED, 0);
    REFUSES(SET("A=1\n", "A", "a\\", DOTENVY_PORTABLE), DOTENVY_UNPORTABLE_LAST_BACKSLASH, 0);
    REFUSES(SET("A=1\n", "A", "${B}", DOTENVY_PORTABLE), DOTENVY_UNPORTABLE_SUBSTITUTION, 0);
    REFUSES(SET("B=1\nA='v' # 'q'\n", "A", "a\"b c", DOTENVY_PORTABLE), DOTENVY_UNPORTABLE_COMMENT, 2);
    REFUSES(SET("B=1\nA='v'\t# 'q'\n", "A", "a\"b c", DOTENVY_PORTABLE), DOTENVY_UNPORTABLE_WHITE_SPACE, 2);
    /* Unknown options come first. */
    static const uint32_t bad[] = {1, 4, 16, 11, 0x80000000u, 0xFFFFFFFFu};
    for (size_t i = 0; i < sizeof bad / sizeof bad[0]; i++) {
        REFUSES(SET("A=1\n", "\xFF", "\xFF", bad[i]), DOTENVY_BAD_OPTION, 0);
        REFUSES(UNSET("A=1\n", "\xFF", bad[i]), DOTENVY_BAD_OPTION, 0);
    }
    REFUSES(UNSET("A=1\n", "A", DOTENVY_PORTABLE), DOTENVY_BAD_OPTION, 0);
}

static void test_warnings(void) {
    WARNS(SET("A=1\nB=$A\nlong=$B\n", "A", "2", 0), "A=2\nB=$A\nlong=$B\n", 2, "Blong");
    edit(SET("A=1\nB=$A\nlong=$B\n", "A", "2", 0), WARNINGS, BUFFER);
    CHECK(warning_is(0, DOTENVY_MENTIONS, "B", 2, 2) && warnings[0].name_at == 17);
    CHECK(warning_is(1, DOTENVY_MENTIONS, "long", 3, 3) && warnings[1].name_at == 18);

    WARNS(SET("-\nA=1\nA=\"x\ny\"\n", "A", "$B", 0), "-\nA='$B'\n", 3, "");
    edit(SET("-\nA=1\nA=\"x\ny\"\n", "A", "$B", 0), WARNINGS, BUFFER);
    CHECK(warning_is(0, DOTENVY_DOLLAR, "", 0, 0));
    CHECK(warning_is(1, DOTENVY_STOPS_BEFORE, "", 1, 1));
    CHECK(warning_is(2, DOTENVY_REMOVED, "", 3, 4));

    WARNS(UNSET("A=1\nB=$A/x\n", "A", 0), "B=$A/x\n", 1, "B");
    /* In the second dialect another name is mentioned. */
    EDITS(SET("A=1\nB=$A_B\n", "A", "2", DOTENVY_NEXT_DIALECT), "A=2\nB=$A_B\n");
    WARNS(SET("A=1\nB=$A_B\n", "A", "2", 0), "A=2\nB=$A_B\n", 1, "B");
    EDITS(UNSET("A=1\nB=$A_B\n", "A", DOTENVY_NEXT_DIALECT), "B=$A_B\n");
}

/* The calls that take memory, each with what it comes to: it writes nothing where a request was refused. */

static const struct bytes some_file =
    BYTES_OF("A=1\nB=\"$A $HOME\"\nC=x y\nD='a longer value than the others are, to be sure'\n");
static const struct bytes some_block = BYTES_OF("HOME=/root\0PATH=/bin:/usr/bin");

static void try_load(void) {
    struct dotenvy_answer a = load(some_file, some_block, 0, BUFFER);
    CHECK(a.fits == !was_refused() && a.status == (a.fits ? DOTENVY_LINE_PARSE : DOTENVY_NO_MEMORY));
    CHECK(a.fits || (a.index == 0 && a.block_len == 0 && a.text_len == 0 && untouched_from(0)));
}

static void try_items_with(uint32_t options) {
    struct dotenvy_counts c = list(some_file, some_block, options, ITEMS, BUFFER);
    CHECK(c.fits == !was_refused() && c.status == (c.fits ? DOTENVY_OK : DOTENVY_NO_MEMORY));
    CHECK(c.items == (c.fits ? 4 : 0));
    CHECK(c.fits || (c.text_len == 0 && untouched_from(0) && no_items_from(0)));
}

static void try_items(void) { try_items_with(0); }
static void try_items_as_written(void) { try_items_with(DOTENVY_AS_WRITTEN); }

static void try_write(void) {
    struct dotenvy_text t = write_pair(BYTES("A"), BYTES("a longer value, with $, to be sure"), 0, BUFFER);
    CHECK(t.fits == !was_refused() && t.status == (t.fits ? DOTENVY_OK : DOTENVY_NO_MEMORY));
    CHECK(t.fits || (t.text_len == 0 && untouched_from(0)));
}

static void try_whole(void) {
    clear(0, 0, 0);
    size_t *told = edge_of(answer_room, sizeof *told);
    uint32_t status = dotenvy_whole(given(first_room, some_file), some_file.length, 0, told);
    CHECK(status == (was_refused() ? DOTENVY_NO_MEMORY : DOTENVY_OK) && errno_is_kept());
    CHECK(*told == (was_refused() ? 0 : some_file.length));
}

static void try_edit(struct edit_call call) {
    struct dotenvy_edit e = edit(call, WARNINGS, BUFFER);
    CHECK(e.fits == !was_refused() && e.status == (e.fits ? DOTENVY_OK : DOTENVY_NO_MEMORY));
    CHECK(e.line == 0 && e.warnings == (e.fits ? 2 : 0));
    CHECK(e.fits || (e.file_len == 0 && e.names_len == 0 && untouched_from(0) && no_warnings_from(0)));
}

static void try_set(void) { try_edit(SET("A=1\nB=$A\nC=$B\n", "A", "a longer value, with blanks", 0)); }
static void try_unset(void) { try_edit(UNSET("A=1\nB=$A\nC=$B\n", "A", 0)); }

/* Refuses each request of a call in turn, and returns how many there are. A call gives back all that it took. */
static size_t refuse_each(void (*try_call)(void)) {
    size_t count = 0;
    for (refuse_at = 1;; refuse_at++) {
        requests = 0;
        try_call();
        CHECK(blocks == 0);
        if (!was_refused()) break;
        count = refuse_at;
    }
    refuse_at = 0;
    return count;
}

static void test_refused_memory(void) {
    CHECK(refuse_each(try_load) > 10);
    size_t of_items = refuse_each(try_items);
    CHECK(of_items > 10 && refuse_each(try_items_as_written) > of_items);
    CHECK(refuse_each(try_write) > 0);
    CHECK(refuse_each(try_whole) > 0);
    CHECK(refuse_each(try_set) > 5);
    CHECK(refuse_each(try_unset) > 5);
}

/* The bytes that the archive writes, read at the offsets of bindings/rust/layout.txt, not by the header's structs. */
static void test_layout_of_archive(void) {
    load(BYTES("B=$A\nC=x y\n"), BYTES("A=9"), 0, BUFFER);
    const uint8_t *at = edge_of(answer_room, 48);
    CHECK(sizeof(struct dotenvy_answer) == 48 && number_at(at, 0, 4) == 1 && number_at(at, 4, 1) == 1);
    CHECK(number_at(at, 8, 8) == 2 && number_at(at, 16, 8) == 8 && number_at(at, 24, 8) == 3);
    CHECK(number_at(at, 32, 8) == 0 && number_at(at, 40, 8) == 0);

    list(BYTES("\nAB=cde\nC=x y\n\n"), BYTES(""), 0, ITEMS, BUFFER);
    at = edge_of(answer_room, 40);
    CHECK(sizeof(struct dotenvy_counts) == 40 && number_at(at, 0, 4) == 0 && number_at(at, 4, 1) == 1);
    CHECK(number_at(at, 8, 8) == 2 && number_at(at, 16, 8) == 8);
    CHECK(number_at(at, 24, 8) == 0 && number_at(at, 32, 8) == 0);
    const uint8_t *first = (const uint8_t *)items, *second = first + 88;
    CHECK(sizeof items[0] == 88 && number_at(first, 0, 4) == 0 && number_at(first, 8, 8) == 0);
    CHECK(number_at(first, 16, 8) == 2 && number_at(first, 24, 8) == 3 && number_at(first, 32, 8) == 0);
    CHECK(number_at(first, 40, 8) == 2 && number_at(first, 48, 8) == 2);
    CHECK(number_at(first, 56, 8) == 1 && number_at(first, 64, 8) == 7);
    CHECK(number_at(first, 72, 8) == 0 && number_at(first, 80, 8) == 0);
    CHECK(number_at(second, 0, 4) == 1 && number_at(second, 8, 8) == 5 && number_at(second, 16, 8) == 0);
    CHECK(number_at(second, 24, 8) == 3 && number_at(second, 32, 8) == 2);
    CHECK(number_at(second, 40, 8) == 3 && number_at(second, 48, 8) == 3);
    CHECK(number_at(second, 56, 8) == 8 && number_at(second, 64, 8) == 6);

    write_pair(BYTES("A"), BYTES("1"), 0, BUFFER);
    at = edge_of(answer_room, 32);
    CHECK(sizeof(struct dotenvy_text) == 32 && number_at(at, 0, 4) == 0 && number_at(at, 4, 1) == 1);
    CHECK(number_at(at, 8, 8) == 6 && number_at(at, 16, 8) == 0 && number_at(at, 24, 8) == 0);

    edit(SET("A=1\nlong=$A\n", "A", "22", 0), WARNINGS, BUFFER);
    at = edge_of(answer_room, 56);
    CHECK(sizeof(struct dotenvy_edit) == 56 && number_at(at, 0, 4) == 0 && number_at(at, 4, 1) == 1);
    CHECK(number_at(at, 8, 8) == 0 && number_at(at, 16, 8) == 13 && number_at(at, 24, 8) == 4);
    CHECK(number_at(at, 32, 8) == 1 && number_at(at, 40, 8) == 0 && number_at(at, 48, 8) == 0);
    CHECK(sizeof warnings[0] == 56 && number_at(warnings, 0, 4) == 1 && number_at(warnings, 8, 8) == 13);
    CHECK(number_at(warnings, 16, 8) == 4 && number_at(warnings, 24, 8) == 2 && number_at(warnings, 32, 8) == 2);
    CHECK(number_at(warnings, 40, 8) == 0 && number_at(warnings, 48, 8) == 0);
    edit(UNSET("B=1\nA=1 # \xE9\n", "A", 0), WARNINGS, BUFFER);
    CHECK(number_at(at, 0, 4) == 11 && number_at(at, 4, 1) == 0 && number_at(at, 8, 8) == 2);
}

struct field {
    const char *name;
    size_t at, size;
};
#define FIELD(type, field) {#field, offsetof(struct type, field), sizeof(((struct type *)0)->field)}

static const struct field answer_fields[] = {
    FIELD(dotenvy_answer, status),    FIELD(dotenvy_answer, fits),     FIELD(dotenvy_answer, index),
    FIELD(dotenvy_answer, block_len), FIELD(dotenvy_answer, text_len), FIELD(dotenvy_answer, reserved)};
static const struct field item_fields[] = {
    FIELD(dotenvy_item, status),    FIELD(dotenvy_item, key_at),   FIELD(dotenvy_item, key_len),
    FIELD(dotenvy_item, text_len),  FIELD(dotenvy_item, index),    FIELD(dotenvy_item, first_line),
    FIELD(dotenvy_item, last_line), FIELD(dotenvy_item, file_at),  FIELD(dotenvy_item, file_len),
    FIELD(dotenvy_item, reserved)};
static const struct field counts_fields[] = {
    FIELD(dotenvy_counts, status),   FIELD(dotenvy_counts, fits),    FIELD(dotenvy_counts, items),
    FIELD(dotenvy_counts, text_len), FIELD(dotenvy_counts, reserved)};
static const struct field text_fields[] = {
    FIELD(dotenvy_text, status), FIELD(dotenvy_text, fits), FIELD(dotenvy_text, text_len),
    FIELD(dotenvy_text, reserved)};
static const struct field edit_fields[] = {
    FIELD(dotenvy_edit, status),   FIELD(dotenvy_edit, fits),      FIELD(dotenvy_edit, line),
    FIELD(dotenvy_edit, file_len), FIELD(dotenvy_edit, names_len), FIELD(dotenvy_edit, warnings),
    FIELD(dotenvy_edit, reserved)};
static const struct field warning_fields[] = {
    FIELD(dotenvy_warning, kind),       FIELD(dotenvy_warning, name_at),   FIELD(dotenvy_warning, name_len),
    FIELD(dotenvy_warning, first_line), FIELD(dotenvy_warning, last_line), FIELD(dotenvy_warning, reserved)};

static void print_struct(const char *name, size_t size, const struct field *fields, size_t count) {
    printf("%s %zu", name, size);
    for (size_t i = 0; i < count; i++) printf(" %s=%zu:%zu", fields[i].name, fields[i].at, fields[i].size);
    printf("\n");
}
#define PRINT_STRUCT(name) \
    print_struct(#name, sizeof(struct dotenvy_##name), name##_fields, sizeof name##_fields / sizeof name##_fields[0])

/* Prints the layout of the header's structs, as bindings/rust/layout.txt has it. */
static void print_layout(void) {
    PRINT_STRUCT(answer);
    PRINT_STRUCT(item);
    PRINT_STRUCT(counts);
    PRINT_STRUCT(text);
    PRINT_STRUCT(edit);
    PRINT_STRUCT(warning);
}

/* Twenty thousand names in a file of over a megabyte, and as many others in a block of over 64 kilobytes. */
enum { NAMES = 20000, VALUE = 60, LINE = 7 + VALUE + 1, TEXT = 6 + VALUE, ENTRY = 9 };

static uint8_t long_file[NAMES * LINE], long_block[NAMES * ENTRY], texts[NAMES * TEXT], left[NAMES * (ENTRY + LINE)];
static struct dotenvy_item all[NAMES];

/* A name of a letter and five digits. */
static void put_name(uint8_t *at, char letter, size_t number) {
    at[0] = (uint8_t)letter;
    for (size_t place = 5; place > 0; place--, number /= 10) at[place] = (uint8_t)('0' + number % 10);
}

/* The lines of the file, each with this byte at its end. */
static void put_lines(uint8_t end) {
    memset(long_file, 'v', sizeof long_file);
    for (size_t i = 0; i < NAMES; i++) {
        put_name(long_file + i * LINE, 'N', 10000 + i);
        long_file[i * LINE + 6] = '=';
        long_file[i * LINE + LINE - 1] = end;
    }
}

/* The keys and values of the file, and the block. */
static void put_texts(void) {
    memset(texts, 'v', sizeof texts);
    for (size_t i = 0; i < NAMES; i++) {
        put_name(texts + i * TEXT, 'N', 10000 + i);
        memcpy(long_block + i * ENTRY, "M00000=v", ENTRY);
        put_name(long_block + i * ENTRY, 'M', 10000 + i);
    }
}

static bool is_nth_item(size_t i) {
    return all[i].status == DOTENVY_OK && all[i].key_at == i * TEXT && all[i].key_len == 6 && all[i].text_len == VALUE
           && all[i].first_line == i + 1 && all[i].last_line == i + 1 && all[i].file_at == i * LINE
           && all[i].file_len == LINE;
}

static void list_long_file(uint32_t options) {
    struct dotenvy_counts counts;
    memset(left, UNWRITTEN, sizeof left);
    dotenvy_items(long_file, sizeof long_file, long_block, sizeof long_block, options, &counts, all, NAMES, left,
                  sizeof texts);
    CHECK(counts.status == DOTENVY_OK && counts.fits && counts.items == NAMES && counts.text_len == sizeof texts);
    CHECK(memcmp(left, texts, sizeof texts) == 0);
    size_t right = 0;
    while (right < NAMES && is_nth_item(right)) right++;
    CHECK(right == NAMES);
}

static void load_long_file(void) {
    struct dotenvy_answer a;
    dotenvy_load(long_file, sizeof long_file, long_block, sizeof long_block, 0, &a, left, sizeof left);
    CHECK(a.status == DOTENVY_OK && a.fits && a.block_len == sizeof left && a.text_len == 0);
    put_lines('\0');
    CHECK(memcmp(left, long_block, sizeof long_block) == 0);
    CHECK(memcmp(left + sizeof long_block, long_file, sizeof long_file) == 0);
}

static void test_many_names(void) {
    put_texts();
    put_lines('\n');
    list_long_file(0);
    list_long_file(DOTENVY_AS_WRITTEN);
    load_long_file();
    CHECK(blocks == 0);
}

/* The most memory that a call takes which reads a file of these bytes. */
static size_t most_to_read(const void *file, size_t file_len, const void *block, size_t block_len) {
    struct dotenvy_counts counts;
    struct dotenvy_answer answer;
    size_t whole_len;
    most_held = 0;
    dotenvy_items(file, file_len, block, block_len, 0, &counts, all, NAMES, left, sizeof left);
    dotenvy_items(file, file_len, block, block_len, DOTENVY_AS_WRITTEN, &counts, all, NAMES, left, sizeof left);
    dotenvy_load(file, file_len, block, block_len, 0, &answer, left, sizeof left);
    CHECK(dotenvy_whole(file, file_len, 0, &whole_len) == DOTENVY_OK && whole_len == file_len);
    CHECK(counts.status == DOTENVY_OK && answer.status != DOTENVY_NO_MEMORY);
    return most_held;
}

/* The same, which edits it. */
static size_t most_to_edit(const void *file, size_t file_len) {
    struct dotenvy_edit set, unset;
    most_held = 0;
    dotenvy_set(file, file_len, "A", 1, "2", 1, 0, &set, NULL, 0, left, sizeof left);
    dotenvy_unset(file, file_len, "A", 1, 0, &unset, NULL, 0, left, sizeof left);
    CHECK(set.status == DOTENVY_OK && (unset.status == DOTENVY_OK || unset.status == DOTENVY_ABSENT));
    return most_held;
}

/* Fills the long file with such lines, as many as asked for, and returns its length. */
static size_t put_copies(const char *line, size_t count) {
    size_t length = strlen(line);
    for (size_t i = 0; i < count; i++) memcpy(long_file + i * length, line, length);
    return count * length;
}

/* A call takes as much memory as the header says: for a small file, for lines of a usual length, for line feeds and
 * comments, and for the lines that take the most: the shortest, one more of them than a power of two. */
static void test_memory(void) {
    enum { SMALL = 20000, USUAL = 10, MOST = 100, MANY = (1 << 14) + 1 };
    CHECK(most_to_read(some_file.at, some_file.length, some_block.at, some_block.length) <= SMALL);
    CHECK(most_to_edit(some_file.at, some_file.length) <= SMALL);
    put_lines('\n');
    CHECK(most_to_read(long_file, sizeof long_file, long_block, sizeof long_block)
          <= USUAL * (sizeof long_file + sizeof long_block));
    CHECK(most_to_edit(long_file, sizeof long_file) <= USUAL * sizeof long_file);
    static const char *const empty[] = {"\n", "# a comment\n"}, *const shortest[] = {"x\n", "\xFF\n", "A=\n"};
    for (size_t i = 0; i < sizeof empty / sizeof empty[0]; i++) {
        size_t length = put_copies(empty[i], MANY / 3);
        CHECK(most_to_read(long_file, length, NULL, 0) <= SMALL && most_to_edit(long_file, length) <= length + SMALL);
    }
    for (size_t i = 0; i < sizeof shortest / sizeof shortest[0]; i++) {
        size_t length = put_copies(shortest[i], MANY);
        CHECK(most_to_read(long_file, length, NULL, 0) <= MOST * length);
        CHECK(most_to_edit(long_file, length) <= MOST * length);
    }
    CHECK(blocks == 0);
}

static void test_calls(void) {
    test_keys();
    test_status_texts();
    test_loads();
    test_shared_inputs();
    test_refused_options();
    test_items();
    test_options_of_items();
    test_as_written();
    test_items_as_written();
    test_drawn_values();
    test_statements_alone();
    test_whole();
    test_writes();
    test_sets();
    test_unsets();
    test_refused_edits();
    test_warnings();
    test_refused_memory();
    test_layout_of_archive();
}

int main(int argc, char **argv) {
    if (argc == 2 && strcmp(argv[1], "layout") == 0) {
        print_layout();
        return 0;
    }
    make_rooms();
    for (unsigned turn = 0; turn < 3; turn++) {
        empty_is_null = turn == 1;
        are_first = turn == 2;
        test_calls();
    }
    test_many_names();
    test_memory();
    printf("%u passed, %u failed\n", passed, failed);
    return failed != 0;
}
