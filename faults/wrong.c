/* Calls that are wrong in one way, put before the library's by faults/must-see: WRONG names the way. */
#include "imrazgul.h"

struct imrazgul_decoded __real_imrazgul_resp2_decode(const uint8_t *src, size_t src_len, uint64_t *table, size_t words);
struct imrazgul_encoded __real_imrazgul_resp2_encode(const uint8_t *src, size_t src_len, const uint64_t *table, size_t words,
                                                     bool ints_as_bulk, uint8_t *out, size_t out_len);

enum way {
    NOTHING,
    READS_BEHIND_SOURCE,
    READS_BEFORE_SOURCE,
    WRITES_SOURCE,
    READS_BEHIND_TABLE,
    WRITES_BEHIND_TABLE,
    WRITES_BEFORE_TABLE,
    WRITES_TABLE_REFUSED,
    LOOKS_INTO_TABLE,
    ENCODE_READS_BEHIND_SOURCE,
    ENCODE_READS_BEHIND_TABLE,
    ENCODE_WRITES_TABLE,
    ENCODE_WRITES_BEHIND_OUTPUT,
    ENCODE_WRITES_BEFORE_OUTPUT,
};

static volatile uint64_t sink;

/* What is written is what stood there, so that only a watcher can see it. */
static void rewrite(volatile uint8_t *at) { *at = *at; }

struct imrazgul_decoded __wrap_imrazgul_resp2_decode(const uint8_t *src, size_t src_len, uint64_t *table, size_t words) {
    struct imrazgul_decoded said = __real_imrazgul_resp2_decode(src, src_len, table, words);
    switch (src_len > 0 && words > 0 ? WRONG : NOTHING) {
    case READS_BEHIND_SOURCE:
        sink = src[src_len];
        break;
    case READS_BEFORE_SOURCE:
        sink = src[-1];
        break;
    case WRITES_SOURCE:
        rewrite((uint8_t *)src);
        break;
    case READS_BEHIND_TABLE:
        sink = table[words];
        break;
    case WRITES_BEHIND_TABLE:
        rewrite((uint8_t *)(table + words));
        break;
    case WRITES_BEFORE_TABLE:
        rewrite((uint8_t *)table - 1);
        break;
    case WRITES_TABLE_REFUSED:
        table[words - 1] += said.answer == IMRAZGUL_REFUSED;
        break;
    case LOOKS_INTO_TABLE:
        if (said.answer == IMRAZGUL_REFUSED && table[0] == 7) {
            said.refusal = IMRAZGUL_BAD_TYPE;
        }
        break;
    default:
        break;
    }
    return said;
}

struct imrazgul_encoded __wrap_imrazgul_resp2_encode(const uint8_t *src, size_t src_len, const uint64_t *table, size_t words,
                                                     bool ints_as_bulk, uint8_t *out, size_t out_len) {
    struct imrazgul_encoded said = __real_imrazgul_resp2_encode(src, src_len, table, words, ints_as_bulk, out, out_len);
    switch (src_len > 0 && words > 0 && out_len > 0 ? WRONG : NOTHING) {
    case ENCODE_READS_BEHIND_SOURCE:
        sink = src[src_len];
        break;
    case ENCODE_READS_BEHIND_TABLE:
        sink = table[words];
        break;
    case ENCODE_WRITES_TABLE:
        rewrite((uint8_t *)table);
        break;
    case ENCODE_WRITES_BEHIND_OUTPUT:
        rewrite(out + out_len);
        break;
    case ENCODE_WRITES_BEFORE_OUTPUT:
        rewrite(out - 1);
        break;
    default:
        break;
    }
    return said;
}
