/* Verdicts on the proofs of transparency logs and maps, from their bytes, under SHA-256.
 *
 * Compare a verdict with WARG_TRUE: a call returns WARG_TRUE, WARG_FALSE, or a negative number that says why there is
 * no verdict, so `if (warg_check_entry(..))` takes a refusal for a true one. warg_text says what a number means.
 *
 * Which call to use first: whoever holds a log's checkpoint, its length and root, and a path as logs send them
 * (RFC 6962, RFC 9162: Certificate Transparency, Go's checksum database, tiled logs) calls warg_check_record and
 * warg_check_tree; with a bundle of proofs warg_check_entry and warg_check_growth. These four check length and index,
 * too. warg_check_inclusion and warg_check_consistency say only that a proof leads to a root. For maps there are
 * warg_check_key and warg_check_absent, and for whoever follows a map by its root, insertion by insertion,
 * warg_check_update and warg_check_insertion.
 *
 * No call keeps state or a pointer; each frees the memory that it allocated. So calls from several threads don't
 * meet, as long as malloc, realloc and free may be called from several threads.
 *
 * What the caller sees to:
 *  - each pointer is valid for as many bytes as the length behind it says, and isn't written meanwhile;
 *    a pointer to no bytes is valid too, and not NULL;
 *  - malloc, realloc and free come from one allocator, and blocks are aligned as the C standard asks;
 *  - no call is made from a signal handler, nor in the forked child of a process with threads;
 *  - bytes of strangers are bounded before they come here: a call asks for up to 60 times as much memory as
 *    a bundle has bytes.
 *
 * The calls are proved up to this boundary. That this header and the library agree is not. */
#ifndef WARG_H
#define WARG_H

#include <stddef.h>
#include <stdint.h>

#ifdef __cplusplus
extern "C" {
#endif

enum {
    WARG_TRUE = 1,
    WARG_FALSE = 0,

    /* Memory was refused. This says nothing of the proof. */
    WARG_OUT_OF_MEMORY = -1,
    /* The bundle has no proof of the kind at the place. */
    WARG_NO_SUCH_PROOF = -2,
    /* A root isn't 32 bytes. It is checked before the bundle or path. */
    WARG_ROOT_LENGTH = -3,

    /* The first fault of the bundle's bytes as a message. */
    WARG_TRUNCATED = -11,        /* they end inside a number or a field */
    WARG_BAD_VARINT = -12,       /* the tenth byte of a varint is above 1 */
    WARG_BAD_TAG = -13,          /* a tag is above 2^32 - 1, or its field number is 0 */
    WARG_GROUP = -14,            /* a field has wire type 3 or 4 */
    WARG_BAD_WIRE_TYPE = -15,    /* a field has wire type 6 or 7 */
    WARG_WRONG_WIRE_TYPE = -16,  /* a known field has another wire type than its own */
    WARG_NUMBER_TOO_LARGE = -17, /* a number is above 2^32 - 1 */

    /* The first fault of what the message holds. */
    WARG_HASH_LENGTH = -21,    /* a digest isn't 32 bytes, or a path's bytes are no multiple of 32 */
    WARG_NOT_ASCENDING = -22,  /* a digest's node isn't above the one before */
    WARG_TOO_MANY_PEERS = -23  /* a map's proof has more than 256 peers */
};

/* The version of this header, as warg_version returns that of the library: a byte each, the three numbers of the Rust
 * crate whose calls these are, and that of this project's release: 0.9.2-rattle.1 is 0x00090201. */
#define WARG_VERSION 0x00090201

/* The version of the library. */
uint32_t warg_version(void);

/* Returns what a number means, in a few words. */
static inline const char *warg_text(int32_t number)
{
    switch (number) {
    case WARG_TRUE: return "true";
    case WARG_FALSE: return "false";
    case WARG_OUT_OF_MEMORY: return "out of memory";
    case WARG_NO_SUCH_PROOF: return "no such proof";
    case WARG_ROOT_LENGTH: return "root is not 32 bytes";
    case WARG_TRUNCATED: return "bytes end inside a number or a field";
    case WARG_BAD_VARINT: return "bad varint";
    case WARG_BAD_TAG: return "bad tag";
    case WARG_GROUP: return "group";
    case WARG_BAD_WIRE_TYPE: return "bad wire type";
    case WARG_WRONG_WIRE_TYPE: return "wrong wire type";
    case WARG_NUMBER_TOO_LARGE: return "number above 2^32 - 1";
    case WARG_HASH_LENGTH: return "digest is not 32 bytes";
    case WARG_NOT_ASCENDING: return "nodes do not ascend";
    case WARG_TOO_MANY_PEERS: return "more than 256 peers";
    default: return "unknown number";
    }
}

/* Whether the inclusion proof at a place of a log bundle, counted from 0, shows that entry `index`, from 0, of
 * the log of this length and root has the value's bytes: it is a proof of that leaf at that length, and
 * evaluates to the root. */
int32_t warg_check_entry(const uint8_t *bundle, size_t bundle_bytes, size_t at, size_t index,
                         const uint8_t *value, size_t value_bytes, size_t length,
                         const uint8_t *root, size_t root_bytes);

/* Whether the consistency proof at a place of a log bundle, counted from 0, shows that the log of the old
 * length and root is a beginning of the log of the new ones: it is a proof between these lengths, and
 * evaluates to both roots. From an empty log it is false: every log continues that one. */
int32_t warg_check_growth(const uint8_t *bundle, size_t bundle_bytes, size_t at, size_t old_length,
                          const uint8_t *old_root, size_t old_root_bytes, size_t new_length,
                          const uint8_t *new_root, size_t new_root_bytes);

/* Whether the inclusion proof at a place of a log bundle evaluates to the root with the value. */
int32_t warg_check_inclusion(const uint8_t *bundle, size_t bundle_bytes, size_t at,
                             const uint8_t *value, size_t value_bytes,
                             const uint8_t *root, size_t root_bytes);

/* Whether the consistency proof at a place of a log bundle evaluates to the two roots. */
int32_t warg_check_consistency(const uint8_t *bundle, size_t bundle_bytes, size_t at,
                               const uint8_t *old_root, size_t old_root_bytes,
                               const uint8_t *new_root, size_t new_root_bytes);

/* Whether the proof at a place of a map bundle, counted from 0, shows that the map with this root holds the
 * value under the key. */
int32_t warg_check_key(const uint8_t *bundle, size_t bundle_bytes, size_t at,
                       const uint8_t *key, size_t key_bytes,
                       const uint8_t *value, size_t value_bytes,
                       const uint8_t *root, size_t root_bytes);

/* Whether the absence at a place of a map bundle, counted from 0, shows that the map with this root holds
 * nothing under the key, or a value without bytes. */
int32_t warg_check_absent(const uint8_t *bundle, size_t bundle_bytes, size_t at,
                          const uint8_t *key, size_t key_bytes,
                          const uint8_t *root, size_t root_bytes);

/* Whether the proof at a place of a map bundle, counted from 0, shows that the map with the new root is the one
 * with the old root, with the new value under the key in place of the old one: it evaluates from the old value
 * to the old root, and from the new value to the new one. */
int32_t warg_check_update(const uint8_t *bundle, size_t bundle_bytes, size_t at,
                          const uint8_t *key, size_t key_bytes,
                          const uint8_t *old_value, size_t old_value_bytes,
                          const uint8_t *new_value, size_t new_value_bytes,
                          const uint8_t *old_root, size_t old_root_bytes,
                          const uint8_t *new_root, size_t new_root_bytes);

/* Whether the absence at a place of a map bundle, counted from 0, shows that the map with the new root is the one
 * with the old root, and the value under a key that had none, or one without bytes. */
int32_t warg_check_insertion(const uint8_t *bundle, size_t bundle_bytes, size_t at,
                             const uint8_t *key, size_t key_bytes,
                             const uint8_t *value, size_t value_bytes,
                             const uint8_t *old_root, size_t old_root_bytes,
                             const uint8_t *new_root, size_t new_root_bytes);

/* Whether an inclusion path shows that entry `index`, from 0, of the log of this length and root has the value's
 * bytes. A path is its digests, 32 bytes each, from the bottom up (RFC 6962, section 2.1.1). Bytes that are no multiple
 * of 32 are WARG_HASH_LENGTH, before allocating. */
int32_t warg_check_record(const uint8_t *path, size_t path_bytes, size_t index,
                          const uint8_t *value, size_t value_bytes, size_t length,
                          const uint8_t *root, size_t root_bytes);

/* Whether a consistency path shows that the log of the old length and root is a beginning of the log of the new
 * ones (RFC 6962, section 2.1.2). Bytes that are no multiple of 32 are WARG_HASH_LENGTH, before allocating. From an
 * empty log it is false: no path is made of it. */
int32_t warg_check_tree(const uint8_t *path, size_t path_bytes, size_t old_length,
                        const uint8_t *old_root, size_t old_root_bytes, size_t new_length,
                        const uint8_t *new_root, size_t new_root_bytes);

#ifdef __cplusplus
}
#endif

#endif
