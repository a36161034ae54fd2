/* Holds include/reel.h to its word at the edges: short and exact buffers, null pointers, and bytes that must stay. */
#include <stdio.h>
#include <string.h>

#include "reel.h"

enum { ROOM = 200, MARK = 0xA5 };

static uint8_t out[ROOM];

/* Whether a report on no bytes at all, in a buffer of so many bytes, is answered so and leaves the rest. */
static int answers(size_t out_len, size_t expected)
{
    const char *text = expected == REEL_SHORT_BUFFER ? "" : "REFUSED 1\n";
    size_t len = strlen(text);
    memset(out, MARK, sizeof out);
    if (reel_report(NULL, 0, out, out_len) != expected || memcmp(out, text, len) != 0) {
        return 0;
    }
    for (size_t i = len; i < sizeof out; i++) {
        if (out[i] != MARK) {
            return 0;
        }
    }
    return 1;
}

int main(void)
{
    int right = answers(0, REEL_SHORT_BUFFER)
        && answers(REEL_SHORTEST_BUFFER - 1, REEL_SHORT_BUFFER)
        && answers(REEL_SHORTEST_BUFFER, 10)
        && answers(ROOM, 10)
        && reel_report(NULL, 0, NULL, 0) == REEL_SHORT_BUFFER
        && reel_check(NULL, 0) == 1;
    if (!right) {
        fprintf(stderr, "edges: the header does not hold\n");
        return 1;
    }
    return 0;
}
