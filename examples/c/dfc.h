/* dfc from C: the libraries libdfc.a and libdfc.so, which `tools/build` makes without a proof and `tools/c_library` with one. */
#ifndef DFC_H
#define DFC_H

#include <stddef.h>
#include <stdint.h>

#ifdef __cplusplus
extern "C" {
#endif

/*
 * Does what the program dfc does with these words, one blank between two of them ("fire data=3,4"), and with this text on standard
 * input. Answers the exit status of dfc: 0 done, 1 invalid words, 2 refused, 3 a trap, 4 the limit, 6 no memory for what is written, 7 no
 * memory, 8 a word that is no UTF-8. *written becomes the number of bytes that dfc writes, and the first `room` of these bytes are
 * put at `out`; where there are more, call again with more room. At 6 *written counts a prefix, whatever the room; at 7 and 8 it is 0.
 * Nothing is kept between calls, and no memory is lost. Calls by several threads at once don't touch one another, as long as their buffers
 * are apart. A call needs up to 2 MB of stack. No pointer may be null, also where the length is 0.
 */
uint8_t dfc_call(const uint8_t *words, size_t words_length, const uint8_t *text, size_t text_length,
                 uint8_t *out, size_t room, uint64_t *written);

#ifdef __cplusplus
}
#endif
#endif
