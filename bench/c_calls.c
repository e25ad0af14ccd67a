/* Calls the library for C on standard input once, over an empty environment: `items` or `load`. The status is 1 if the
 * call fails, or a load comes to an error of the file. */
#include "dotenvy.h"
#include <stdio.h>
#include <stdlib.h>
#include <string.h>

enum { MOST = 1 << 24 };

int main(int argc, char **argv) {
    static uint8_t file[MOST], out[2 * MOST];
    static struct dotenvy_item items[MOST / 16];
    size_t length = fread(file, 1, sizeof file, stdin);
    if (argc == 2 && strcmp(argv[1], "items") == 0) {
        struct dotenvy_counts counts;
        uint32_t status = dotenvy_items(file, length, NULL, 0, 0, &counts, items, sizeof items / sizeof items[0], out,
                                        sizeof out);
        return status != DOTENVY_OK || !counts.fits;
    }
    if (argc == 2 && strcmp(argv[1], "load") == 0) {
        struct dotenvy_answer answer;
        uint32_t status = dotenvy_load(file, length, NULL, 0, 0, &answer, out, sizeof out);
        return status != DOTENVY_OK || !answer.fits;
    }
    return 2;
}
