/* fedbundle: the store under a replica of a SPIFFE trust server, for C.
 *
 * A replica is opened, changed and read by the calls below. docs/LIBRARY.md says what each call means, and
 * docs/GUARANTEES.md what is proved of it.
 *
 * Ownership
 * - A fedbundle_replica is a place of the caller's own, on its stack or in its structs. Set it to FEDBUNDLE_CLOSED before
 *   its first call. fedbundle_open puts a replica there, and fedbundle_close frees it and closes the place again. A place
 *   that is left open leaks its replica.
 * - Never copy an open place: only one of the two would be closed, and a call on the other one reads memory that was
 *   freed. Pass its address.
 * - A call on a closed place returns FEDBUNDLE_USAGE and does nothing. So does fedbundle_open on an open one. A place may
 *   be closed any number of times.
 * - Texts go in by pointer and length, and the library keeps none of these pointers. Null is right where the length is 0.
 * - Texts come out into buffers of the caller's own. Nothing that the library returns is to be freed.
 * - A fedbundle_outcome is the caller's own too. Each call sets it anew; it need not be set before.
 *
 * Buffers
 * - Where a text has more bytes than the buffer, the call returns FEDBUNDLE_NEEDS_ROOM, outcome->length says how many it
 *   has, and nothing has changed: neither the buffer nor the replica. So a buffer of length 0 asks for the length.
 * - A buffer, an outcome and the inputs must not overlap.
 *
 * Threads
 * - A place belongs to one thread at a time. It may go from one thread to another where a lock, or the start or the end of
 *   a thread, lies between two calls. Two calls on one place at once are not allowed, also where both only read.
 * - Two replicas have nothing in common.
 * - No call is allowed in a signal handler, or in a process that a process with several threads forked.
 *
 * Memory comes from malloc, realloc and free of the C library, which must be of one allocator. Where they refuse, the call
 * returns the number of a code with NoMemory, and the replica holds what it held. No call ends the process, prints, or
 * uses a file, a socket or the clock.
 */
#ifndef FEDBUNDLE_H
#define FEDBUNDLE_H

#include <stddef.h>
#include <stdint.h>

#ifdef __cplusplus
extern "C" {
#endif

/* A place for a replica. `at` is the library's own. */
typedef struct fedbundle_replica {
    void *at;
} fedbundle_replica;

#define FEDBUNDLE_CLOSED {0}

/* What a call says besides what it returns. */
typedef struct fedbundle_outcome {
    uint64_t count;            /* what the call counts */
    uint64_t length;           /* how many bytes the text has, also where there is no room for them */
    uint64_t fault_length;     /* how many bytes of `fault` are the refusal's text: never above 240 */
    unsigned char fault[240];  /* the refusal's text, as the command prints it: "S8 Refused line 3 G1 UnknownDomain" */
} fedbundle_outcome;

/* What a call returns. Below 0 it is the number of a code, as -204 for B4: its hundreds stand for the letter (N 1, B 2, C 3,
 * L 4, G 5, O 6, S 7, E 9), the rest is its number. A code in another one is added to 1,000 of these: -605204 is O5 with
 * B4 in it. docs/REFERENCE.md says what each code means; L1 is NotCanonical, L2 TooLong, L3 NoMemory, of a receipt's line.
 * A call returns no other codes than those that are named at it, and FEDBUNDLE_USAGE. */
#define FEDBUNDLE_DONE 0
#define FEDBUNDLE_NEEDS_ROOM 1 /* the text has more bytes than the buffer; nothing has changed */
#define FEDBUNDLE_NONE 2       /* there is none of what was asked for */
#define FEDBUNDLE_ALREADY 3    /* what was brought was held already */
#define FEDBUNDLE_USAGE (-1)   /* the call may not be made so: see Ownership; or a name is not UTF-8, or a key no 64 digits */

/* The functions of the library. They take no null pointer, also where the length is 0: call those below. */
int64_t fedbundle_raw_version(uint8_t *out, size_t room, fedbundle_outcome *outcome);
int64_t fedbundle_raw_open(fedbundle_replica *replica, const uint8_t *config, size_t config_length,
                           const uint8_t *snapshot, size_t snapshot_length, fedbundle_outcome *outcome);
int64_t fedbundle_raw_take(fedbundle_replica *replica, const uint8_t *line, size_t line_length,
                           fedbundle_outcome *outcome);
int64_t fedbundle_raw_observe(fedbundle_replica *replica, const uint8_t *domain, size_t domain_length,
                              const uint8_t *endpoint, size_t endpoint_length, const uint8_t *key, size_t key_length,
                              const uint8_t *document, size_t document_length, uint8_t *out, size_t room,
                              fedbundle_outcome *outcome);
int64_t fedbundle_raw_distrust(fedbundle_replica *replica, const uint8_t *domain, size_t domain_length,
                               const uint8_t *key, size_t key_length, fedbundle_outcome *outcome);
int64_t fedbundle_raw_merge(fedbundle_replica *replica, const uint8_t *snapshot, size_t snapshot_length,
                            fedbundle_outcome *outcome);
int64_t fedbundle_raw_current(fedbundle_replica *replica, const uint8_t *domain, size_t domain_length, uint8_t *out,
                              size_t room, fedbundle_outcome *outcome);
int64_t fedbundle_raw_explain(fedbundle_replica *replica, const uint8_t *domain, size_t domain_length,
                              const uint8_t *document, size_t document_length, uint8_t *out, size_t room,
                              fedbundle_outcome *outcome);
int64_t fedbundle_raw_replica_report(fedbundle_replica *replica, uint8_t *out, size_t room, fedbundle_outcome *outcome);
int64_t fedbundle_raw_snapshot(fedbundle_replica *replica, uint8_t *out, size_t room, fedbundle_outcome *outcome);
int64_t fedbundle_raw_have(fedbundle_replica *replica, uint8_t bucket, uint8_t *out, size_t room,
                           fedbundle_outcome *outcome);
int64_t fedbundle_raw_answer(fedbundle_replica *replica, const uint8_t *asked, size_t asked_length, uint8_t *out,
                             size_t room, fedbundle_outcome *outcome);
int64_t fedbundle_raw_absorb(fedbundle_replica *replica, const uint8_t *answered, size_t answered_length,
                             fedbundle_outcome *outcome);
void fedbundle_raw_close(fedbundle_replica *replica);
int64_t fedbundle_raw_report(const uint8_t *config, size_t config_length, const uint8_t *lines, size_t lines_length,
                             uint8_t *out, size_t room, fedbundle_outcome *outcome);
int64_t fedbundle_raw_canon(const uint8_t *domain, size_t domain_length, const uint8_t *document,
                            size_t document_length, uint8_t *out, size_t room, fedbundle_outcome *outcome);

/* An address for no bytes. */
static inline const uint8_t *fedbundle_in(const void *bytes, size_t length) {
    static const uint8_t none[1] = {0};
    return length ? (const uint8_t *)bytes : none;
}
static inline uint8_t *fedbundle_out(void *bytes, size_t room) {
    static uint8_t none[1];
    return room ? (uint8_t *)bytes : none;
}

/* Writes the version of the library, without a line feed. It is never refused. */
static inline int64_t fedbundle_version(void *out, size_t room, fedbundle_outcome *outcome) {
    return fedbundle_raw_version(fedbundle_out(out, room), room, outcome);
}

/* Opens a closed place: it holds a replica of this configuration, with what the snapshot has, or with nothing where the
 * snapshot has no bytes. A refusal leaves it closed. C1 to C9, S1 to S10, E2. */
static inline int64_t fedbundle_open(fedbundle_replica *replica, const void *config, size_t config_length,
                                     const void *snapshot, size_t snapshot_length, fedbundle_outcome *outcome) {
    return fedbundle_raw_open(replica, fedbundle_in(config, config_length), config_length,
                              fedbundle_in(snapshot, snapshot_length), snapshot_length, outcome);
}

/* Takes the receipt of a line, without its line feed. Counts the bundles that are accepted now and were not.
 * FEDBUNDLE_ALREADY where the receipt was held; L1 to L3, G1 to G4, G6. */
static inline int64_t fedbundle_take(fedbundle_replica *replica, const void *line, size_t line_length,
                                     fedbundle_outcome *outcome) {
    return fedbundle_raw_take(replica, fedbundle_in(line, line_length), line_length, outcome);
}

/* Takes a bundle that was fetched, on the word of TLS: the domain's name, the SPIFFE ID of the endpoint that served it, the
 * key id of the authority under which its certificate was validated (64 lower-case hexadecimal digits), and the document.
 * Writes the receipt's line, with a line feed. Where there is no room for it, nothing is taken. N1 to N6, O1 to O6, E2. */
static inline int64_t fedbundle_observe(fedbundle_replica *replica, const void *domain, size_t domain_length,
                                        const void *endpoint, size_t endpoint_length, const void *key,
                                        size_t key_length, const void *document, size_t document_length, void *out,
                                        size_t room, fedbundle_outcome *outcome) {
    return fedbundle_raw_observe(replica, fedbundle_in(domain, domain_length), domain_length,
                                 fedbundle_in(endpoint, endpoint_length), endpoint_length,
                                 fedbundle_in(key, key_length), key_length, fedbundle_in(document, document_length),
                                 document_length, fedbundle_out(out, room), room, outcome);
}

/* Distrusts a key in a domain, for good. Counts the bundles that are accepted no longer. FEDBUNDLE_ALREADY where it was
 * distrusted; N1 to N6, G1, G3. */
static inline int64_t fedbundle_distrust(fedbundle_replica *replica, const void *domain, size_t domain_length,
                                         const void *key, size_t key_length, fedbundle_outcome *outcome) {
    return fedbundle_raw_distrust(replica, fedbundle_in(domain, domain_length), domain_length,
                                  fedbundle_in(key, key_length), key_length, outcome);
}

/* Takes all that another replica's snapshot has, or nothing. Counts the receipts that were not held. S1 to S10, G1 to G6,
 * E2. */
static inline int64_t fedbundle_merge(fedbundle_replica *replica, const void *snapshot, size_t snapshot_length,
                                      fedbundle_outcome *outcome) {
    return fedbundle_raw_merge(replica, fedbundle_in(snapshot, snapshot_length), snapshot_length, outcome);
}

/* Writes the current bundle of a domain in its canonical form, with a line feed. FEDBUNDLE_NONE where none is accepted;
 * N1 to N6, E2. */
static inline int64_t fedbundle_current(fedbundle_replica *replica, const void *domain, size_t domain_length, void *out,
                                        size_t room, fedbundle_outcome *outcome) {
    return fedbundle_raw_current(replica, fedbundle_in(domain, domain_length), domain_length, fedbundle_out(out, room),
                                 room, outcome);
}

/* Writes the lines of a shortest chain of receipts by which a document is accepted: none for a configured one.
 * FEDBUNDLE_NONE where it is not accepted; N1 to N6, B1 to B8, E2. */
static inline int64_t fedbundle_explain(fedbundle_replica *replica, const void *domain, size_t domain_length,
                                        const void *document, size_t document_length, void *out, size_t room,
                                        fedbundle_outcome *outcome) {
    return fedbundle_raw_explain(replica, fedbundle_in(domain, domain_length), domain_length,
                                 fedbundle_in(document, document_length), document_length, fedbundle_out(out, room),
                                 room, outcome);
}

/* Writes the report of what is accepted. E2, S10. */
static inline int64_t fedbundle_replica_report(fedbundle_replica *replica, void *out, size_t room,
                                               fedbundle_outcome *outcome) {
    return fedbundle_raw_replica_report(replica, fedbundle_out(out, room), room, outcome);
}

/* Writes the snapshot of what is held: replicas that hold the same write the same bytes. E2, S10. */
static inline int64_t fedbundle_snapshot(fedbundle_replica *replica, void *out, size_t room, fedbundle_outcome *outcome) {
    return fedbundle_raw_snapshot(replica, fedbundle_out(out, room), room, outcome);
}

/* Writes the have of a bucket, a line with its line feed: what this replica holds of it. Another one answers it. E2, S10. */
static inline int64_t fedbundle_have(fedbundle_replica *replica, uint8_t bucket, void *out, size_t room,
                                     fedbundle_outcome *outcome) {
    return fedbundle_raw_have(replica, bucket, fedbundle_out(out, room), room, outcome);
}

/* Writes the answer to another replica's have. S1 to S3, S7, S10, E2. */
static inline int64_t fedbundle_answer(fedbundle_replica *replica, const void *asked, size_t asked_length, void *out,
                                       size_t room, fedbundle_outcome *outcome) {
    return fedbundle_raw_answer(replica, fedbundle_in(asked, asked_length), asked_length, fedbundle_out(out, room), room,
                                outcome);
}

/* Takes all that an answer has, or nothing. Counts the receipts that were not held. S1 to S10, E2. */
static inline int64_t fedbundle_absorb(fedbundle_replica *replica, const void *answered, size_t answered_length,
                                       fedbundle_outcome *outcome) {
    return fedbundle_raw_absorb(replica, fedbundle_in(answered, answered_length), answered_length, outcome);
}

/* Frees the replica, and closes its place. */
static inline void fedbundle_close(fedbundle_replica *replica) { fedbundle_raw_close(replica); }

/* Writes the report of what is accepted from the receipts of these lines, each of which ends with a line feed. No replica
 * is kept. Counts the lines without a receipt that fits, and bytes after the last line as one more, also where there is no
 * room for the report. C1 to C9, E1, E2. */
static inline int64_t fedbundle_report(const void *config, size_t config_length, const void *lines, size_t lines_length,
                                       void *out, size_t room, fedbundle_outcome *outcome) {
    return fedbundle_raw_report(fedbundle_in(config, config_length), config_length, fedbundle_in(lines, lines_length),
                                lines_length, fedbundle_out(out, room), room, outcome);
}

/* Writes the canonical text of a document of a domain, a line with its id, and a line with the id of each key of an X.509
 * authority. N1 to N6, B1 to B8, E2. */
static inline int64_t fedbundle_canon(const void *domain, size_t domain_length, const void *document,
                                      size_t document_length, void *out, size_t room, fedbundle_outcome *outcome) {
    return fedbundle_raw_canon(fedbundle_in(domain, domain_length), domain_length,
                               fedbundle_in(document, document_length), document_length, fedbundle_out(out, room), room,
                               outcome);
}

#ifdef __cplusplus
}
#endif

#endif
