/* Makes the calls of the library for C that it reads, one a line, and prints what came of each, as bindings/python/calls.py
 * does. Empty texts are passed as null pointers.
 *
 * With the word `sweep`, under inject.c, each call is made again and again, with its first allocation refused, its second
 * and so on up to the 500th, then ever fewer of those that follow, until it is made without a refusal. After each refusal
 * the replica must have the snapshot that it had, and the refusal must be a NoMemory. It ends with the number of refusals
 * on standard error.
 *
 * With the word `small`, each call that writes is made first with no room, and with one byte too little: it must say how
 * many bytes there are, write none, and change nothing. */
#include <stdio.h>
#include <stdlib.h>
#include <string.h>

#include "fedbundle.h"

#define MOST_WORDS 8
#define REPLICAS 4
#define GUARD 0x5a
/* So many first allocations of a call are each refused, and of those after them fewer and fewer. */
#define EACH_OF 500

struct text {
    uint8_t *bytes;
    size_t length;
};

static fedbundle_replica replicas[REPLICAS] = {FEDBUNDLE_CLOSED, FEDBUNDLE_CLOSED, FEDBUNDLE_CLOSED, FEDBUNDLE_CLOSED};
static struct text last;
static unsigned long refusals;

static void stop(const char *what) {
    fprintf(stderr, "calls: %s\n", what);
    exit(3);
}

static void *room_for(size_t length) {
    void *room = malloc(length ? length : 1);
    if (!room) stop("no memory for the test itself");
    return room;
}

static unsigned digit(char c) { return c <= '9' ? (unsigned)(c - '0') : (unsigned)(c - 'a') + 10; }

static struct text text_of(const char *word) {
    struct text text = {0, 0};
    if (!strcmp(word, "-")) return text;
    if (!strcmp(word, "$")) {
        text.bytes = room_for(last.length);
        text.length = last.length;
        if (last.length) memcpy(text.bytes, last.bytes, last.length);
        return text;
    }
    text.length = strlen(word) / 2;
    text.bytes = room_for(text.length);
    for (size_t i = 0; i < text.length; i++) text.bytes[i] = (uint8_t)(digit(word[2 * i]) << 4 | digit(word[2 * i + 1]));
    return text;
}

static int writes(const char *call) {
    static const char *const those[] = {"observe", "current", "explain", "report", "snapshot", "have", "answer", "canon", "report_of", 0};
    for (const char *const *at = those; *at; at++)
        if (!strcmp(*at, call)) return 1;
    return 0;
}

/* Makes one call. */
static int64_t made(const char *call, fedbundle_replica *r, struct text *t, unsigned bucket, uint8_t *out, size_t room,
                    fedbundle_outcome *end) {
#define T(i) t[i].bytes, t[i].length
    if (!strcmp(call, "open")) return fedbundle_open(r, T(0), T(1), end);
    if (!strcmp(call, "take")) return fedbundle_take(r, T(0), end);
    if (!strcmp(call, "distrust")) return fedbundle_distrust(r, T(0), T(1), end);
    if (!strcmp(call, "merge")) return fedbundle_merge(r, T(0), end);
    if (!strcmp(call, "absorb")) return fedbundle_absorb(r, T(0), end);
    if (!strcmp(call, "observe")) return fedbundle_observe(r, T(0), T(1), T(2), T(3), out, room, end);
    if (!strcmp(call, "current")) return fedbundle_current(r, T(0), out, room, end);
    if (!strcmp(call, "explain")) return fedbundle_explain(r, T(0), T(1), out, room, end);
    if (!strcmp(call, "report")) return fedbundle_replica_report(r, out, room, end);
    if (!strcmp(call, "snapshot")) return fedbundle_snapshot(r, out, room, end);
    if (!strcmp(call, "have")) return fedbundle_have(r, (uint8_t)bucket, out, room, end);
    if (!strcmp(call, "answer")) return fedbundle_answer(r, T(0), out, room, end);
    if (!strcmp(call, "canon")) return fedbundle_canon(T(0), T(1), out, room, end);
    if (!strcmp(call, "report_of")) return fedbundle_report(T(0), T(1), out, room, end);
#undef T
    if (strcmp(call, "close")) stop("no such call");
    fedbundle_close(r);
    end->count = 0;
    return FEDBUNDLE_DONE;
}

/* What a replica holds; nothing where it is closed. */
static struct text held(fedbundle_replica *r) {
    struct text text = {0, 0};
    fedbundle_outcome end;
    int64_t returned = fedbundle_snapshot(r, 0, 0, &end);
    if (returned == FEDBUNDLE_USAGE) return text;
    if (returned != FEDBUNDLE_NEEDS_ROOM) stop("a snapshot does not say its length");
    text.length = end.length;
    text.bytes = room_for(text.length);
    if (fedbundle_snapshot(r, text.bytes, text.length, &end) != FEDBUNDLE_DONE) stop("no snapshot");
    return text;
}

static void same(fedbundle_replica *r, const struct text *before, const char *what) {
    struct text after = held(r);
    if (after.length != before->length || (after.length && memcmp(after.bytes, before->bytes, after.length))) stop(what);
    free(after.bytes);
}

static int is_out_of_memory(int64_t code) {
    static const int64_t those[] = {-106, -208, -309, -403, -504, -606504, -710, -902, 0};
    for (const int64_t *at = those; *at; at++)
        if (*at == code) return 1;
    return 0;
}

static void print(const char *call, int64_t returned, const fedbundle_outcome *end, const uint8_t *out) {
    if (returned < 0)
        printf("refused %lld %.*s\n", (long long)returned, (int)end->fault_length, (const char *)end->fault);
    else if (returned == FEDBUNDLE_NONE)
        puts("none");
    else if (returned == FEDBUNDLE_ALREADY)
        puts("already");
    else if (!writes(call))
        printf("done %llu\n", (unsigned long long)end->count);
    else {
        if (!strcmp(call, "report_of"))
            printf("counted %llu ", (unsigned long long)end->count);
        else
            fputs("text ", stdout);
        for (size_t i = 0; i < end->length; i++) printf("%02x", out[i]);
        puts(end->length ? "" : "-");
    }
}

/* With less room than the text has, nothing is written or changed. */
static void try_small(const char *call, fedbundle_replica *r, struct text *t, unsigned bucket) {
    struct text before = held(r);
    fedbundle_outcome end;
    if (made(call, r, t, bucket, 0, 0, &end) == FEDBUNDLE_NEEDS_ROOM) {
        size_t length = end.length;
        uint8_t *out = room_for(length);
        memset(out, GUARD, length);
        if (made(call, r, t, bucket, out, length - 1, &end) != FEDBUNDLE_NEEDS_ROOM || end.length != length)
            stop("one byte too little is not refused, or has another length");
        for (size_t i = 0; i < length; i++)
            if (out[i] != GUARD) stop("a buffer that is too small was written");
        free(out);
    }
    same(r, &before, "a buffer that is too small changed the replica");
    free(before.bytes);
}

/* Refuses one allocation after another, until the call is made without. */
static int64_t swept(const char *call, fedbundle_replica *r, struct text *t, unsigned bucket, uint8_t *out, size_t room,
                     fedbundle_outcome *end) {
    struct text before = held(r);
    for (unsigned long nth = 1;; nth += 1 + nth / EACH_OF) {
        char mark[40];
        snprintf(mark, sizeof mark, "REFUSE %lu", nth);
        getenv(mark);
        int64_t returned = made(call, r, t, bucket, out, room, end);
        const char *counted = getenv("REFUSE end");
        if (!counted) stop("nothing refuses allocations: inject.c is not preloaded");
        if (strtoul(counted, 0, 10) < nth || !is_out_of_memory(returned)) {
            free(before.bytes);
            return returned;
        }
        refusals++;
        same(r, &before, "a refused allocation changed the replica");
    }
}

int main(int count, char **words_of_main) {
    const char *how = count > 1 ? words_of_main[1] : "";
    int sweeps = !strcmp(how, "sweep"), small = !strcmp(how, "small");
    size_t room = 1 << 22;
    uint8_t *out = room_for(room);
    char *line = 0;
    size_t size = 0;
    while (getline(&line, &size, stdin) > 0) {
        char *words[MOST_WORDS] = {0}, *rest = 0;
        size_t found = 0;
        for (char *at = strtok_r(line, " \n", &rest); at && found < MOST_WORDS; at = strtok_r(0, " \n", &rest)) words[found++] = at;
        if (found < 2) stop("a line has no call and no replica");
        fedbundle_replica *r = &replicas[atoi(words[1]) % REPLICAS];
        int is_have = !strcmp(words[0], "have");
        struct text texts[MOST_WORDS] = {{0, 0}};
        if (!is_have)
            for (size_t i = 2; i < found; i++) texts[i - 2] = text_of(words[i]);
        unsigned bucket = is_have ? (unsigned)atoi(words[2]) : 0;
        fedbundle_outcome end;
        memset(&end, GUARD, sizeof end);
        if (small && writes(words[0])) try_small(words[0], r, texts, bucket);
        int64_t returned = sweeps ? swept(words[0], r, texts, bucket, out, room, &end)
                                  : made(words[0], r, texts, bucket, out, room, &end);
        print(words[0], returned, &end, out);
        if (writes(words[0]) && returned == FEDBUNDLE_DONE) {
            free(last.bytes);
            last.length = end.length;
            last.bytes = room_for(last.length);
            memcpy(last.bytes, out, last.length);
        }
        for (size_t i = 0; i < MOST_WORDS; i++) free(texts[i].bytes);
    }
    for (size_t i = 0; i < REPLICAS; i++) fedbundle_close(&replicas[i]);
    free(last.bytes);
    free(line);
    free(out);
    if (sweeps) fprintf(stderr, "%lu refusals\n", refusals);
    return 0;
}
