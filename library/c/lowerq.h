/* Lowering queries from C. docs/library.md says how the library is built and linked, and what is proved of it. */
#ifndef LOWERQ_H
#define LOWERQ_H

#include <stddef.h>
#include <stdint.h>

#ifdef __cplusplus
extern "C" {
#endif

/* The most bytes that a query may have. */
#define LOWERQ_LONGEST ((size_t)1 << 24)

/* How a call ends, and which text it gives. docs/report-format.md has both. */
enum lowerq_status {
    LOWERQ_LOWERED = 0,       /* the report of the lowered plan */
    LOWERQ_REFUSED = 1,       /* refused KIND PATH */
    LOWERQ_BAD_QUERY = 3,     /* bad query KIND PATH */
    LOWERQ_OUT_OF_MEMORY = 6, /* no text */
    LOWERQ_TOO_LONG = 7       /* too long */
};

/* Lowers the query of query_length bytes, a JSON text as docs/query-format.md has it, and returns a lowerq_status.
 *
 * The front of the text goes to the buffer, as much of it as fits; what lies behind it there is left as it was. The
 * text's whole length goes to *written, also where the buffer is shorter: then a call with that much room gives all of
 * the text. No zero ends the text.
 *
 * Nothing is kept from one call to the next. Calls may be made at once from several threads.
 *
 * The caller sees to this, and nothing checks it:
 *  - No pointer is null, also where a length is 0. Behind each lies memory of that length, of the query's to read, of
 *    the others' to read and write. The query, the buffer and *written do not overlap, and no other thread touches
 *    them during the call, but to read the query.
 *  - The stack has room: docs/library.md says how much. Its end is a segmentation fault.
 *  - malloc, realloc and free are of one allocator, and a block is aligned to each power of two up to 16 that divides
 *    its size.
 *  - The call is not made from a signal handler, nor in a forked child of a process with threads. */
uint8_t lowerq_lower(const uint8_t *query, size_t query_length, uint8_t *buffer, size_t buffer_length, size_t *written);

#ifdef __cplusplus
}
#endif

#endif
