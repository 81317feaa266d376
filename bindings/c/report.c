/* Prints what the receipts of the second file make a replica of the configuration in the first one accept. */
#include <fedbundle.h>
#include <stdio.h>
#include <string.h>

static char config[1 << 20], line[1 << 23], report[1 << 20];

static void complain(const fedbundle_outcome *outcome) {
    fprintf(stderr, "%.*s\n", (int)outcome->fault_length, (const char *)outcome->fault);
}

int main(int count, char **words) {
    FILE *first = count == 3 ? fopen(words[1], "rb") : NULL, *second = first ? fopen(words[2], "rb") : NULL;
    if (!second) return 2;
    size_t length = fread(config, 1, sizeof config, first);

    fedbundle_replica replica = FEDBUNDLE_CLOSED;
    fedbundle_outcome outcome;
    if (fedbundle_open(&replica, config, length, NULL, 0, &outcome) < 0) {
        complain(&outcome);
        return 1;
    }
    while (fgets(line, sizeof line, second))
        if (fedbundle_take(&replica, line, strcspn(line, "\n"), &outcome) < 0) complain(&outcome);
    int64_t done = fedbundle_replica_report(&replica, report, sizeof report, &outcome);
    if (done < 0) complain(&outcome);
    if (done == FEDBUNDLE_DONE) fwrite(report, 1, outcome.length, stdout);
    fedbundle_close(&replica);
    return done == FEDBUNDLE_DONE ? 0 : 1;
}
