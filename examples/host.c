/*
 * Prints the report on a reel file:  host FILE
 *
 * It ends with status 0 where the reel is approved, 2 where it is not, and 1 where there is no report. Build it with
 *   cc -std=c11 -Wall -Wextra -Werror -O2 -Iinclude examples/host.c target/staticlib/libreport.a -o host
 */
#include <errno.h>
#include <stdio.h>
#include <string.h>

#include "reel.h"

enum { APPROVED = 0, FAILED = 1, NOT_APPROVED = 2 };

/* One byte more than is reported on suffices to know that a file is too long. */
static uint8_t file[REEL_LONGEST_FILE + 1];

/* Reads the front of a file, and says whether that succeeded. */
static int read_front(const char *name, size_t *len)
{
    FILE *stream = fopen(name, "rb");
    if (stream == NULL) {
        fprintf(stderr, "host: cannot open %s: %s\n", name, strerror(errno));
        return 0;
    }
    *len = fread(file, 1, sizeof file, stream);
    int failed = ferror(stream);
    int reason = errno;
    fclose(stream);
    if (failed) {
        fprintf(stderr, "host: cannot read %s: %s\n", name, strerror(reason));
        return 0;
    }
    return 1;
}

int main(int argc, char **argv)
{
    if (argc != 2) {
        fprintf(stderr, "usage: host FILE\n");
        return FAILED;
    }
    size_t file_len;
    if (!read_front(argv[1], &file_len)) {
        return FAILED;
    }
    uint8_t report[REEL_SHORTEST_BUFFER] = {0};
    size_t report_len = reel_report(file, file_len, report, sizeof report);
    if (report_len == REEL_SHORT_BUFFER) {
        fprintf(stderr, "host: the report's buffer is too short\n");
        return FAILED;
    }
    if (fwrite(report, 1, report_len, stdout) != report_len || fflush(stdout) != 0) {
        fprintf(stderr, "host: cannot print the report: %s\n", strerror(errno));
        return FAILED;
    }
    if (file_len > REEL_LONGEST_FILE) {
        return NOT_APPROVED;
    }
    return reel_check(file, file_len) == 0 ? APPROVED : NOT_APPROVED;
}
