/* As much of the processor's instructions as is wanted to find where one begins: how long each is,
 * and from a function's first one on which of them puts the number of io_uring_enter into eax
 * before a call.
 */
#include "rewriting.h"

#include <string.h>

/* What follows an opcode: nothing (.), a byte (b), two (w), three (e), four (j), four or with a
 * prefix two (z), such or with REX.W eight (q), an address (o); and after the bytes that name
 * registers or memory nothing (m), a byte (M), four or two (Z), or these only for a test (t, T). An
 * opcode that isn't known or isn't one: -. */
static const char of_one_byte[] = "mmmmbz--mmmmbz--"
                                  "mmmmbz--mmmmbz--"
                                  "mmmmbz--mmmmbz--"
                                  "mmmmbz--mmmmbz--"
                                  "----------------"
                                  "................"
                                  "---m----zZbM...."
                                  "bbbbbbbbbbbbbbbb"
                                  "MZ-Mmmmmmmmmmmmm"
                                  "..........-....."
                                  "oooo....bz......"
                                  "bbbbbbbbqqqqqqqq"
                                  "MMw.--MZe.w..b-."
                                  "mmmm---.mmmmmmmm"
                                  "bbbbbbbbjj-b...."
                                  "-.--..tT......mm";

/* The same of those after 0x0f. */
static const char of_two_bytes[] = "mmmm-.....-.-m.M"
                                   "mmmmmmmmmmmmmmmm"
                                   "mmmm----mmmmmmmm"
                                   "........--------"
                                   "mmmmmmmmmmmmmmmm"
                                   "mmmmmmmmmmmmmmmm"
                                   "mmmmmmmmmmmmmmmm"
                                   "MMMMmmm.--mmmmmm"
                                   "jjjjjjjjjjjjjjjj"
                                   "mmmmmmmmmmmmmmmm"
                                   "...mMm--...mMmmm"
                                   "mmmmmmmmmmMmmmmm"
                                   "mmMmMMMm........"
                                   "mmmmmmmmmmmmmmmm"
                                   "mmmmmmmmmmmmmmmm"
                                   "mmmmmmmmmmmmmmmm";

enum { REX = 0x40, REX_W = 8, REX_R = 4, REX_B = 1, MOST_PREFIXES = 11 };

/* The bytes that name registers or memory. */
static size_t length_of_names(const uint8_t *at)
{
    unsigned mode = *at >> 6, low = *at & 7;
    bool has_index = mode != 3 && low == 4;
    size_t length = has_index ? 2 : 1;
    if (mode == 1)
        return length + 1;
    if (mode == 2 || (mode == 0 && (has_index ? at[1] & 7 : low) == 5))
        return length + 4;
    return length;
}

static size_t length_after(char kind, const uint8_t *at, bool is_short, bool is_wide)
{
    size_t number = is_short && !is_wide ? 2 : 4;
    switch (kind) {
    case '.':
        return 0;
    case 'b':
        return 1;
    case 'w':
        return 2;
    case 'e':
        return 3;
    case 'j':
        return 4;
    case 'o':
        return 8;
    case 'z':
        return number;
    case 'q':
        return is_wide ? 8 : number;
    case 'm':
        return length_of_names(at);
    case 'M':
        return length_of_names(at) + 1;
    case 'Z':
        return length_of_names(at) + number;
    case 't':
        return length_of_names(at) + (*at >> 3 & 6 ? 0 : 1);
    default:
        return length_of_names(at) + (*at >> 3 & 6 ? 0 : number);
    }
}

/* What follows an opcode of the maps that are named by a number. In the third all have a byte more.
 */
static char kind_of(unsigned map, uint8_t opcode)
{
    return map == 1                           ? of_two_bytes[opcode]
           : map == 3                         ? 'M'
           : map == 2 || map == 5 || map == 6 ? 'm'
                                              : '-';
}

/* One whose prefix names the map and the registers. */
static size_t length_of_vectors(const uint8_t *at)
{
    size_t prefix = *at == 0xc5 ? 2 : *at == 0xc4 ? 3 : 4;
    char kind = kind_of(*at == 0xc5 ? 1 : at[1] & (*at == 0xc4 ? 31 : 7), at[prefix]);
    return kind == '-' ? 0 : prefix + 1 + length_after(kind, at + prefix + 1, false, false);
}

static bool is_prefix(uint8_t byte)
{
    return memchr("\x66\x67\xf0\xf2\xf3\x2e\x36\x3e\x26\x64\x65", byte, MOST_PREFIXES);
}

size_t length_of(const uint8_t *start)
{
    const uint8_t *at = start;
    bool is_short = false, is_wide = false;
    for (; is_prefix(*at) && at < start + MOST_PREFIXES; at++)
        is_short |= *at == 0x66;
    if (*at == 0xc4 || *at == 0xc5 || *at == 0x62) {
        size_t length = length_of_vectors(at);
        return length ? length + (size_t)(at - start) : 0;
    }
    if ((*at & 0xf0) == REX)
        is_wide = *at++ & REX_W;
    char kind = of_one_byte[*at];
    if (*at == 0x0f) {
        at++;
        kind = *at == 0x38 || *at == 0x3a ? kind_of(*at == 0x38 ? 2 : 3, 0) : kind_of(1, *at);
        at += *at == 0x38 || *at == 0x3a;
    }
    at++;
    return kind == '-' ? 0 : (size_t)(at - start) + length_after(kind, at, is_short, is_wide);
}

/* One that can be carried out anywhere, and leaves rax and the stack: a register's value or a
 * number goes into a register, or two are exclusively ored. */
static bool is_movable(const uint8_t *at, size_t length)
{
    unsigned rex = (*at & 0xf0) == REX ? *at : 0, target;
    const uint8_t *opcode = at + (rex != 0);
    bool is_of_two = length == 2 + (size_t)(rex != 0) && opcode[1] >> 6 == 3;
    if (is_of_two && (*opcode == 0x89 || *opcode == 0x31))
        target = (opcode[1] & 7) | (rex & REX_B ? 8 : 0);
    else if (is_of_two && (*opcode == 0x8b || *opcode == 0x33))
        target = (opcode[1] >> 3 & 7) | (rex & REX_R ? 8 : 0);
    else if ((*opcode & 0xf8) == 0xb8)
        target = (*opcode & 7) | (rex & REX_B ? 8 : 0);
    else if (*opcode == 0xc7 && opcode[1] >> 3 == 0x18)
        target = (opcode[1] & 7) | (rex & REX_B ? 8 : 0);
    else
        return false;
    return target != 0 && target != 4;
}

const uint8_t *find_number(const uint8_t *function, const uint8_t *call)
{
    const uint8_t *found = NULL, *at = function;
    while (at < call) {
        size_t length = length_of(at);
        if (length == 0)
            return NULL;
        if (memcmp(at, NUMBER, NUMBER_LENGTH) == 0)
            found = at;
        else if (!is_movable(at, length))
            found = NULL;
        at += length;
    }
    return at == call && call - found <= MOST_MOVED ? found : NULL;
}
