/* The shape of each call that a library of ours exports, for programs that are made from the list of them.
 *
 * A new call takes a line SHAPE_name here; one of a new shape, what that shape is in near.c, in far.c and in bench/stack.c. */
#include "imrazgul.h"

/* The calls of text_calls, which has no header. */
struct text_answer {
    uint64_t code;
    uint64_t value;
};
struct text_answer text_call_plain(const uint8_t *s, size_t n);
struct text_answer text_call_signed(const uint8_t *s, size_t n, _Bool three);
struct text_answer text_call_number(const uint8_t *s, size_t n);
struct text_answer text_call_double(const uint8_t *s, size_t n);
struct text_answer text_call_boolean(const uint8_t *s, size_t n);

#define SHAPE_imrazgul_resp2_decode DECODE
#define SHAPE_imrazgul_resp3_decode DECODE
#define SHAPE_imrazgul_resp3_stream DECODE
#define SHAPE_imrazgul_resp2_decode_at DECODE_AT
#define SHAPE_imrazgul_resp3_decode_at DECODE_AT
#define SHAPE_imrazgul_resp3_stream_at DECODE_AT
#define SHAPE_imrazgul_resp2_encode ENCODE
#define SHAPE_imrazgul_resp2_length LENGTH
#define SHAPE_imrazgul_u64_digits U64_DIGITS
#define SHAPE_imrazgul_i64_digits I64_DIGITS
#define SHAPE_text_call_plain TEXT
#define SHAPE_text_call_signed TEXT_FLAG
#define SHAPE_text_call_number TEXT
#define SHAPE_text_call_double TEXT
#define SHAPE_text_call_boolean TEXT
