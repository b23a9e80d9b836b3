/* Fires a program that it holds as a text, then one that is refused, and prints what dfc writes and its statuses. */
#include <stdio.h>
#include <stdlib.h>
#include <string.h>

#include "dfc.h"

/* Prints what dfc writes with these words and this text, and then its status. Returns 0, or -1 where there is no memory. */
static int show(const char *words, const char *text) {
    uint64_t written = 16; /* a first guess, which the second text needs more than */
    size_t room = 0;
    uint8_t *out = NULL, status = 0;
    while (room < written) { /* again, where there was more than room for */
        free(out);
        room = written;
        if ((out = malloc(room)) == NULL) return -1;
        status = dfc_call((const uint8_t *)words, strlen(words), (const uint8_t *)text, strlen(text), out, room, &written);
    }
    fwrite(out, 1, written, stdout);
    printf("status %d\n", status);
    free(out);
    return 0;
}

int main(void) {
    if (show("fire data=3,4", "      READ *,I,J\n      PRINT *,I+J\n      END\n")) return 1;
    return show("fire", "      I=\n      END\n") ? 1 : 0;
}
