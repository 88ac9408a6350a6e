/* Prints key and value of every SET in a file of RESP2 commands. `examples/run` builds and runs it. */
#include <stdio.h>
#include <string.h>

#include "imrazgul.h"

static uint8_t src[1 << 20]; /* the largest file */
static uint64_t table[64][IMRAZGUL_ROW_WORDS];

static int is_blob(const uint64_t *row) { return row[IMRAZGUL_WORD_KIND] == IMRAZGUL_BLOB_STRING; }
static size_t size(const uint64_t *row) { return row[IMRAZGUL_WORD_END] - row[IMRAZGUL_WORD_START]; }
static const uint8_t *text(const uint64_t *row) { return src + row[IMRAZGUL_WORD_START]; }

int main(int argc, char **argv) {
    FILE *file = argc == 2 ? fopen(argv[1], "rb") : NULL;
    if (file == NULL) {
        fprintf(stderr, "usage: sets FILE\n");
        return 2;
    }
    size_t length = fread(src, 1, sizeof src, file), at = 0;
    imrazgul_decoded d;
    while (d = imrazgul_resp2_decode_at(src, length, at, table[0], sizeof table / 8), d.answer == IMRAZGUL_FRAME) {
        const uint64_t *name = table[1], *key = table[2], *value = table[3];
        if (d.rows >= 4 && is_blob(name) && is_blob(key) && is_blob(value) && size(name) == 3 &&
            memcmp(text(name), "SET", 3) == 0) {
            fwrite(text(key), 1, size(key), stdout);
            putchar(' ');
            fwrite(text(value), 1, size(value), stdout);
            putchar('\n');
        }
        at += d.consumed;
    }
    if (at < length) {
        fprintf(stderr, "byte %d: %s\n", (int)at, d.refusal ? imrazgul_refusal_words(d.refusal) : "unfinished");
    }
    return at < length;
}
