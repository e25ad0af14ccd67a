/* Environment files (.env) for C, read and edited by a proved library.
 *
 * Link libdotenvy.a, or libdotenvy.so.1 by -ldotenvy: `pkg-config --cflags --libs dotenvy` says how.
 *
 * Each call is a function of its bytes: nothing is kept between two calls, nothing has to be freed, and no call
 * touches the process or its files. errno is left to malloc, realloc and free. docs/GRAMMAR.md says what a file means;
 * the folder docs is that of the library's repository.
 *
 * What you have to guarantee, since nothing checks C:
 *   - A pointer leads to as many bytes, items or warnings as the length after it says. With a length of 0 it may be
 *     NULL. The pointers to `answer`, `counts`, `edit` and `whole` are never NULL: what they point to is there,
 *     whatever it holds before the call. What isn't bytes is aligned as C aligns it, to 8 bytes.
 *   - `out`, `items`, `warnings` and what is answered overlap nothing else that the call is given. What the others
 *     point to is only read, and may overlap.
 *   - The processor is of x86-64-v2: it has SSE3, SSSE3, SSE4.1, SSE4.2, POPCNT, CMPXCHG16B and LAHF. On a lesser one a
 *     call can end the process by an illegal instruction (SIGILL).
 *   - malloc, realloc and free come from one allocator. Threads may call at the same time; a signal handler may not
 *     call, nor the forked child of a process with threads.
 *
 * What you are told:
 *   - The status says what the call comes to, and `fits` whether your buffers were long enough. Look at both: where a
 *     buffer is too short, the status is the same as with a longer one.
 *   - Keys, values, names and texts of errors are UTF-8. Outside of a block no NUL ends them, and a value of
 *     dotenvy_items may have NULs in it: take the lengths.
 *   - Lines count from 1, and places from 0.
 *
 * A block is an environment as bytes: NAME=VALUE and a NUL, one after the other. An entry is skipped if it is not
 * UTF-8, has no '=', or has no name before it. Of several entries with one name the first counts. The last entry may
 * lack its NUL.
 *
 * So a new block lacks the entries of the old one that are not UTF-8, and those without a name. To lose none, keep the
 * old environment, and take of the new block what is new or changed: a load removes no variable. A name in a value
 * means nothing where its variable is not UTF-8.
 *
 * Memory: a call asks malloc for what it builds, and frees all of it before it returns. For a small file that is up to
 * 20 kilobytes. For a long one it is about 10 bytes for each byte of the file and of the block where lines have 70
 * bytes, and at most about 100 where they are as short as can be: names, values and errors take the most. A value with
 * names in it takes what they mean, even with DOTENVY_AS_WRITTEN, and that can be far more than the file has: 40 lines
 * such as B=$A$A double a value 40 times. Line feeds and comments take nothing, except in the copy that dotenvy_set and
 * dotenvy_unset make of the file. dotenvy_is_key, dotenvy_status_text and dotenvy_version ask for no memory. Where
 * malloc fails, the status is DOTENVY_NO_MEMORY, and malloc has set errno.
 *
 * What stays as it is, in all versions with one major number (the soname is libdotenvy.so.1): each call with its
 * arguments, each number of a status, an option and a warning, and each struct with its size and its fields. What is
 * `reserved` is 0 now, and a later version may tell more there. New calls, statuses, options and warnings may come; an
 * option that a call doesn't know is DOTENVY_BAD_OPTION. So treat a status that you don't know as an error.
 *
 * An example:
 *
 *     #include <dotenvy.h>
 *     #include <stdio.h>
 *     #include <string.h>
 *
 *     static const char file[] = "HOST=localhost\nURL=\"http://${HOST}:$PORT/\"\n";
 *     static const char block[] = "PORT=9"; // its last NUL is in sizeof
 *
 *     int main(void) {
 *         char out[256];
 *         struct dotenvy_answer a;
 *         dotenvy_load(file, sizeof file - 1, block, sizeof block, 0, &a, out, sizeof out);
 *         if (!a.fits) {
 *             // a.status is DOTENVY_NO_MEMORY or DOTENVY_BAD_OPTION,
 *             // or call again with a.block_len + a.text_len bytes for `out`
 *             return 1;
 *         }
 *         for (size_t at = 0; at < a.block_len; at += strlen(out + at) + 1)
 *             puts(out + at);             // HOST=localhost, PORT=9, URL=http://localhost:9/
 *         if (a.status != DOTENVY_OK)     // what is before the error was loaded
 *             fprintf(stderr, "error %u: %.*s\n", (unsigned)a.status, (int)a.text_len, out + a.block_len);
 *         return 0;
 *     }
 */
#ifndef DOTENVY_H
#define DOTENVY_H

#include <stdbool.h>
#include <stddef.h>
#include <stdint.h>

#ifdef __cplusplus
extern "C" {
#endif

/* The version of this header. That of the library is what dotenvy_version() gives. */
#define DOTENVY_VERSION_MAJOR 1
#define DOTENVY_VERSION_MINOR 0
#define DOTENVY_VERSION_PATCH 0
#define DOTENVY_VERSION (1000000 * DOTENVY_VERSION_MAJOR + 1000 * DOTENVY_VERSION_MINOR + DOTENVY_VERSION_PATCH)

/* What a call or an item comes to. The numbers are the same in all calls. */
enum {
    DOTENVY_OK = 0,
    DOTENVY_LINE_PARSE = 1,     /* a line is wrong: the text at fault, and the index in it where a reader gives up */
    DOTENVY_NOT_UTF8 = 2,       /* a line, or the value of dotenvy_set or dotenvy_write, is not UTF-8; no text */
    DOTENVY_NUL = 3,            /* a value that was to be set has a NUL: the text of a load is its key */
    DOTENVY_TOO_MANY_READS = 4, /* the bound on reads was met; no file shorter than 2^32 bytes comes to it */
    DOTENVY_NO_MEMORY = 5,      /* an allocation failed, and nothing was written */
    DOTENVY_BAD_OPTION = 6,     /* an option that the call doesn't have, and nothing was written */

    /* Why dotenvy_set or dotenvy_unset refuses, and writes nothing: one of the reasons, where there are several. */
    DOTENVY_NO_KEY = 7,         /* the name can be no key; of dotenvy_write, too */
    DOTENVY_ABSENT = 8,         /* dotenvy_unset: no line assigns the key */
    DOTENVY_QUOTE_OPEN = 9,     /* a quote stays open to the end of the file, so nothing can be appended */
    DOTENVY_END_OPEN = 10,      /* the file ends after a backslash or a single blank: end it with a line feed first */
    DOTENVY_UNREADABLE = 11,    /* no line assigns the key, and one that begins with it stays open, or is not UTF-8 */
    DOTENVY_LONG_COMMENT = 12,  /* a comment goes on over several lines, and it would be cut, or go */
    /* With DOTENVY_PORTABLE, why there is no line that is read alike. */
    DOTENVY_UNPORTABLE_MARK = 13,            /* the file begins with a byte order mark */
    DOTENVY_UNPORTABLE_CARRIAGE_RETURN = 14, /* the value has a carriage return */
    DOTENVY_UNPORTABLE_APOSTROPHE = 15,      /* it has a single quote, and a double quote, a dollar or a backslash */
    DOTENVY_UNPORTABLE_LINE_FEED = 16,       /* it has a line feed, and a double quote, a dollar or a backslash */
    DOTENVY_UNPORTABLE_BACKSLASHES = 17,     /* it has two backslashes in a row */
    DOTENVY_UNPORTABLE_LAST_BACKSLASH = 18,  /* it ends with a backslash */
    DOTENVY_UNPORTABLE_SUBSTITUTION = 19,    /* it has `${` and a later `}` */
    DOTENVY_UNPORTABLE_COMMENT = 20,         /* the comment of the line has the quotes that the value needs */
                                             /* 21 belongs to renames; no call gives it */
    DOTENVY_UNPORTABLE_WHITE_SPACE = 22      /* the line has other white space than spaces, or ends in a lone CR */
};

/* What a call is asked for: 0, or some of these joined by `|`. */
enum {
    DOTENVY_OVERRIDE = 1,     /* dotenvy_load: a name that is there gets the value of the file */
    DOTENVY_NEXT_DIALECT = 2, /* all calls on a file: the second dialect of docs/GRAMMAR.md */
    DOTENVY_DROP_MARK = 4,    /* dotenvy_items, dotenvy_whole: drop a byte order mark at the start, as a load does */
    DOTENVY_PORTABLE = 8,     /* dotenvy_set: a line that the readers of Python, Node and Ruby read alike, or none */
    DOTENVY_AS_WRITTEN = 16   /* dotenvy_items: no name in a value is substituted */
};

/* What a warning of an edit tells. Its lines are those of the old file. */
enum {
    DOTENVY_MENTIONS = 1,     /* this name is declared on this line by a mention of the key, itself or through others */
    DOTENVY_STOPS_BEFORE = 2, /* a load stops at this line, before it comes to the key */
    DOTENVY_REMOVED = 3,      /* these lines went: a later one of the key, or lines of a value with a fault */
    DOTENVY_DOLLAR = 4        /* the value has a dollar before a name or a brace: it is text in the file; on no line */
};

/* What a load comes to. */
struct dotenvy_answer {
    uint32_t status;  /* DOTENVY_OK, or the error at which the load stopped */
    bool fits;        /* whether the block and the text were written */
    size_t index;     /* DOTENVY_LINE_PARSE: the place in the text */
    size_t block_len; /* bytes of the new block */
    size_t text_len;  /* bytes of the text of the error, right after the block */
    uint64_t reserved[2];
};

/* A pair of a file, or an error in its place. */
struct dotenvy_item {
    uint32_t status;     /* DOTENVY_OK for a pair, or which error */
    size_t key_at;       /* where its key begins in `out`; its text begins at key_at + key_len */
    size_t key_len;      /* bytes of the key; 0 for an error */
    size_t text_len;     /* bytes of the value of a pair, or of the text of an error */
    size_t index;        /* DOTENVY_LINE_PARSE: the place in the text */
    uint64_t first_line; /* the physical line on which it begins, counted from 1; 0 if it is on none */
    uint64_t last_line;  /* the physical line on which it ends */
    size_t file_at;      /* where the bytes of these lines begin in `file` */
    size_t file_len;     /* how many bytes these lines are, with their ends */
    uint64_t reserved[2];
};

/* How many items there are. */
struct dotenvy_counts {
    uint32_t status; /* DOTENVY_OK, DOTENVY_NO_MEMORY or DOTENVY_BAD_OPTION; items have statuses of their own */
    bool fits;       /* whether the items and their texts were written */
    size_t items;    /* how many items there are */
    size_t text_len; /* bytes of all keys and texts */
    uint64_t reserved[2];
};

/* What a call comes to that writes one text. */
struct dotenvy_text {
    uint32_t status; /* DOTENVY_OK, or why there is no text */
    bool fits;       /* whether it was written */
    size_t text_len; /* bytes of the text */
    uint64_t reserved[2];
};

/* What an edit comes to. */
struct dotenvy_edit {
    uint32_t status;  /* DOTENVY_OK, or why the file is not edited */
    bool fits;        /* whether the new file, the warnings and their names were written */
    uint64_t line;    /* of a refusal: the physical line at fault, counted from 1; 0 if it is of none */
    size_t file_len;  /* bytes of the new file */
    size_t names_len; /* bytes of the names of the warnings, right after the file */
    size_t warnings;  /* how many warnings there are */
    uint64_t reserved[2];
};

/* Something to know of an edit that was made. Those of one kind come in the order of their lines. */
struct dotenvy_warning {
    uint32_t kind;       /* DOTENVY_MENTIONS, or another of these */
    size_t name_at;      /* where its name begins in `out` */
    size_t name_len;     /* bytes of the name; 0 but for DOTENVY_MENTIONS */
    uint64_t first_line; /* the physical line on which it begins, counted from 1; 0 if it is on none */
    uint64_t last_line;  /* the physical line on which it ends */
    uint64_t reserved[2];
};

/* Each call below that takes options returns its status. It writes its answer to the struct that it is given, which has
 * the same status, or to `whole`. */

/* Whether these bytes may be a key of a file: an ASCII letter or `_`, then ASCII letters, digits, `_` and dots. */
bool dotenvy_is_key(const void *text, size_t text_len);

/* Writes what a status says to `out`, in ASCII and without a NUL, and returns the length of that text: 100 bytes are
 * enough for each. Of a number that is no status it says `unknown`. Where `out` is too short, nothing is written. */
size_t dotenvy_status_text(uint32_t status, void *out, size_t out_len);

/* Loads a file over the environment of a block: a name that is there keeps its value, unless DOTENVY_OVERRIDE is set.
 *
 * It stops at the first error; what is before it counts. The new block is written to the start of `out`, in byte order
 * of the names, and the text of the error right after it. Where `out` is too short for both nothing is written, `fits`
 * is false, and block_len + text_len is the length of `out` that the same call needs.
 *
 * docs/GRAMMAR.md, "Faults and their places", says which text a wrong line has, and what its index counts. Its number
 * is not told. To have it, list the items, with DOTENVY_DROP_MARK: their first error is that of the load. A value with
 * a NUL is a pair there. */
uint32_t dotenvy_load(const void *file, size_t file_len, const void *block, size_t block_len, uint32_t options,
                      struct dotenvy_answer *answer, void *out, size_t out_len);

/* Writes the items of a file to `items`, and their keys and texts one after the other to `out`: all pairs and all
 * errors, in order. A name in a value means its value in the block, else the last one declared before it in the file.
 *
 * With DOTENVY_AS_WRITTEN the text of a pair is its value with each name as the file has it, as $NAME or ${NAME}.
 * Quotes are left out and escapes are read, as ever, so a dollar in it may also be one that was quoted or escaped. All
 * else is told as without this option, errors too.
 *
 * Where `items` is too short for all items, or `out` for all texts, nothing is written, `fits` is false, and `items`
 * and `text_len` are the lengths that the same call needs. */
uint32_t dotenvy_items(const void *file, size_t file_len, const void *block, size_t block_len, uint32_t options,
                       struct dotenvy_counts *counts, struct dotenvy_item *items, size_t items_len, void *out,
                       size_t out_len);

/* Tells by `whole` how many of these first bytes of a file are whole statements, whatever follows them: all up to the
 * last line feed, or to a line before it with a quote that isn't closed yet. So a reader can list the items of these
 * bytes, read on only if it needs more, and list what is left once the file has ended. With DOTENVY_DROP_MARK a byte
 * order mark at the start is dropped, and counted: this is for the start of the file alone. Where the status is not
 * DOTENVY_OK, `whole` is 0.
 *
 * A call that lists the rest doesn't know what is before it: lines and places count from the start of what it is given,
 * and a name that was declared before means nothing. Where values have names in them, list statement by statement, each
 * by its file_at and file_len, under a block with the environment and then, of each other name, its last value. */
uint32_t dotenvy_whole(const void *file, size_t file_len, uint32_t options, size_t *whole);

/* Writes a pair to `out`: a line, with its line feed, that reads back as this key and this value, in both dialects and
 * under every environment. It is KEY="VALUE", with a backslash before each double quote, dollar and backslash of the
 * value. `options` is 0.
 *
 * The status is DOTENVY_NO_KEY where the key can be none, and DOTENVY_NOT_UTF8 where the value is not UTF-8. Where
 * `out` is too short nothing is written, `fits` is false, and text_len is the length that it needs. */
uint32_t dotenvy_write(const void *key, size_t key_len, const void *value, size_t value_len, uint32_t options,
                       struct dotenvy_text *answer, void *out, size_t out_len);

/* Sets a key of a file to a value: the first line that assigns it has the value, and later ones are gone. Where none
 * does, a line is appended. Every other byte stays, comments too, except for blanks before the line's comment and the
 * end of the file's last line: docs/EDIT.md, "What stays, and what changes", says when these change. The value reads
 * back as it is: no name in it is substituted.
 *
 * The new file is written to the start of `out`, and the names of the warnings right after it. Where `warnings` is too
 * short for all warnings, or `out` for the file and the names, nothing is written, `fits` is false, and `warnings` and
 * file_len + names_len are the lengths that the same call needs. Where the status is not DOTENVY_OK, these are 0. */
uint32_t dotenvy_set(const void *file, size_t file_len, const void *key, size_t key_len, const void *value,
                     size_t value_len, uint32_t options, struct dotenvy_edit *edit, struct dotenvy_warning *warnings,
                     size_t warnings_len, void *out, size_t out_len);

/* Unsets a key of a file: the lines that assign it are gone, with their comments. Every other byte stays; one empty
 * line is left where the file would else begin with a byte order mark that it had not. All else is as in
 * dotenvy_set. */
uint32_t dotenvy_unset(const void *file, size_t file_len, const void *key, size_t key_len, uint32_t options,
                       struct dotenvy_edit *edit, struct dotenvy_warning *warnings, size_t warnings_len, void *out,
                       size_t out_len);

/* 1000000 times the major version, 1000 times the minor one, and the number of the patch: 1000000 is 1.0.0. */
uint32_t dotenvy_version(void);

#ifdef __cplusplus
}
#endif
#endif
