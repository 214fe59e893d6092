/* The publishers' desk: the file and verifier checks of a class file. */
#ifndef TARIFF_DESK_H
#define TARIFF_DESK_H

#include <stddef.h>
#include <stdint.h>

#ifdef __cplusplus
extern "C" {
#endif

/* What the desk says of a file. */
enum tariff_verdict {
    TARIFF_DESK_ACCEPTED = 0,   /* a class file that the verifier accepts */
    TARIFF_DESK_FILE = 2,       /* no class file */
    TARIFF_DESK_UNVERIFIED = 6, /* the verifier rejects it */
    TARIFF_DESK_UNMAPPED = 15   /* a jump's target, or an instruction after a goto or return, has no map */
};

/* One of enum tariff_verdict: 0 if the bytes are a class file that the verifier accepts, 2 if they are no class file, 15 if a jump's
   target, or an instruction after a goto or return, has no map, 6 if the verifier rejects it. `bytes` is `length` bytes that nothing else
   changes during the call; they may be any bytes, of any number, also none. */
uint8_t tariff_check(const uint8_t *bytes, size_t length);

/* The cells of the answer of tariff_check_at. Of a shorter table the first ones are written, of a longer one the first three. */
enum tariff_desk_cell {
    TARIFF_DESK_NUMBER = 0, /* what the call returns */
    TARIFF_DESK_METHOD = 1, /* of a 6 or 15 the method, by its number in the file's order, from 0; else 0 */
    TARIFF_DESK_POINT = 2   /* of a 6 or 15 the point, an offset in that method's code, or the code's length; else 0 */
};
enum { TARIFF_DESK_ANSWER = 3 };

/* The number of tariff_check, and the place of a 6 or 15: the first method at which the check fails, and where in its code. Of a 15 that is
   the instruction that has no map though it follows a goto or return, or whose target has none. Of a 6 it is the instruction that is
   rejected; the code's length, if the code runs off its end or maps are left behind it; the next instruction, or the code's length, if a
   map lies within one; and 0, if what a method starts with doesn't fit its map there. `answer` is `cells` cells that nothing else uses
   during the call. */
uint8_t tariff_check_at(const uint8_t *bytes, size_t length, uint32_t *answer, size_t cells);

#ifdef __cplusplus
}
#endif

#endif
