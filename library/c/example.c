/* Lowers the query on standard input, prints the text, and ends with the status, as `lowerq lower` does. */
#include <stdio.h>
#include <stdlib.h>

#include "lowerq.h"

enum { READ_FAILED = 4, WRITE_FAILED = 5 };

/* A byte more than a query may have, so that a longer input is seen to be too long. */
static uint8_t query[LOWERQ_LONGEST + 1];

int main(void) {
    size_t query_length = fread(query, 1, sizeof query, stdin);
    if (ferror(stdin)) {
        return READ_FAILED;
    }
    uint8_t *buffer = NULL;
    size_t room = 0;
    size_t written = 4096;
    uint8_t status;
    do {
        room = written;
        free(buffer);
        buffer = malloc(room);
        if (buffer == NULL) {
            return LOWERQ_OUT_OF_MEMORY;
        }
        status = lowerq_lower(query, query_length, buffer, room, &written);
    } while (written > room);
    int failed = fwrite(buffer, 1, written, stdout) != written || fflush(stdout) != 0;
    free(buffer);
    return failed ? WRITE_FAILED : status;
}
