/* The row finder as a library: one request text to one answer text. The formats and numbers are those of the README. The kinds of
 * requests: 1 search, 2 check, 3 survey, 4 gates, 5 circulant, 6 walk, whose line one has a fifth number, the budget.
 *
 * Threads: every call may be made from any thread, and from several at once. The library has no state: a call reads its
 * request, writes to the space and the length that it is lent, and uses its own stack; it takes no memory from elsewhere. */
#ifndef ROWFIND_H
#define ROWFIND_H

#include <stddef.h>
#include <stdint.h>

#ifdef __cplusplus
extern "C" {
#endif

/* Stack: a call takes at most 96 KiB, most of it for a table of products. A thread whose stack has ROWFIND_STACK bytes can make
 * every call and has some left for its own. Both are measured, not proved: bindings/c/test holds the library to them. */
#define ROWFIND_STACK (160 * 1024)

/* No answer has more bytes, so a space of this length is never too short. Gate lists (kind 4) are the longest answers; those of
 * the other kinds have at most 583. */
#define ROWFIND_LONGEST_ANSWER 52877

/* Answers the request in the lent space and stores a length at *length.
 *
 * Returns 0 if the request is accepted: *length is the length of the answer, which stands at the start of the space.
 * Returns 1 to 9 if it is refused: *length is 0, and one line with the number (seven bytes) stands at the start of the
 * space if at least seven bytes are lent.
 * Returns 10 if the answer due is longer than the space: *length is 0, and no byte of the space changes.
 * The bytes of the space behind what is written keep their contents.
 *
 *  1  the text is not of the form, is too long, or has not as many values as its count says
 *  2  the kind is not 1, 2, 3, 4, 5 or 6
 *  3  the polynomial is not in 4 to 511; for a survey, the degree is not in 2 to 8
 *  4  the polynomial is reducible
 *  5  the order is not allowed for the kind; for kind 5, it is not in 2 to 8
 *  6  the count is not allowed for the kind and order; for kind 5, it is not in 1 to 8
 *  7  a value is 2^m or more
 *  8  a candidate is 0 or repeated
 *  9  none: no row over the candidates is both an involution and MDS, and for kind 6 every row was tried; for kind 5, none is MDS
 * 10  the lent space is shorter than the answer due
 *
 * request, space and length are not null, even where a length is 0; they do not overlap. */
uint32_t rowfind_answer(const uint8_t *request, size_t request_len, uint8_t *space, size_t space_len, size_t *length);

#ifdef __cplusplus
}
#endif

#endif
