/* Takes the receipts of a file through the library for C, and then makes the report again and again.
 *
 * usage: library CONFIG RECEIPTS REPORTS    prints the report, and on standard error the nanoseconds of processors for all
 * takes and for all reports */
#include <stdio.h>
#include <stdlib.h>
#include <string.h>
#include <time.h>

#include "fedbundle.h"

static void stop(const char *what) {
    fprintf(stderr, "library: %s\n", what);
    exit(3);
}

static uint8_t *text_of(const char *path, size_t *length) {
    FILE *file = fopen(path, "rb");
    if (!file || fseek(file, 0, SEEK_END)) stop(path);
    *length = (size_t)ftell(file);
    rewind(file);
    uint8_t *text = malloc(*length + 1);
    if (!text || fread(text, 1, *length, file) != *length) stop(path);
    fclose(file);
    return text;
}

static unsigned long long used(void) {
    struct timespec now;
    clock_gettime(CLOCK_PROCESS_CPUTIME_ID, &now);
    return now.tv_sec * 1000000000ull + (unsigned long long)now.tv_nsec;
}

int main(int count, char **words) {
    if (count != 4) stop("usage: library CONFIG RECEIPTS REPORTS");
    size_t config_length, length, room = 1 << 26;
    uint8_t *config = text_of(words[1], &config_length), *text = text_of(words[2], &length), *out = malloc(room);
    fedbundle_replica replica = FEDBUNDLE_CLOSED;
    fedbundle_outcome end;
    if (!out || fedbundle_open(&replica, config, config_length, 0, 0, &end)) stop("not opened");
    unsigned long long begun = used();
    for (uint8_t *at = text, *feed; (feed = memchr(at, '\n', (size_t)(text + length - at))); at = feed + 1)
        if (fedbundle_take(&replica, at, (size_t)(feed - at), &end) < 0) stop("a receipt is refused");
    unsigned long long taken = used();
    for (int left = atoi(words[3]); left > 0; left--)
        if (fedbundle_replica_report(&replica, out, room, &end)) stop("no report");
    unsigned long long reported = used();
    fprintf(stderr, "%llu %llu\n", taken - begun, reported - taken);
    fwrite(out, 1, end.length, stdout);
    fedbundle_close(&replica);
    free(out);
    free(text);
    free(config);
    return 0;
}
