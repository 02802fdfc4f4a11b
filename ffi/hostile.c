/* A hostile caller of the library. It says what went wrong and answers 1, or answers 0.
 *
 *     hostile ROUNDS < lines     mutates the bundles of the check lines of the vectors, ROUNDS times
 *     hostile memory             prints how much memory a call takes, as times of its bundle's bytes
 */
#define _GNU_SOURCE
#include <malloc.h>
#include <stdio.h>
#include <stdlib.h>
#include <string.h>

#include "warg.h"

enum { MOST_BUNDLES = 4096, MEBIBYTE = 1 << 20 };

static struct { uint8_t *at; size_t count; } bundles[MOST_BUNDLES];
static size_t bundle_count;
static const uint8_t root[33] = { 7 };

/* Numbers that look like chance, the same in each run (xorshift64). */
static uint64_t state = 88172645463325252u;
static uint64_t chance(void)
{
    state ^= state << 13;
    state ^= state >> 7;
    state ^= state << 17;
    return state;
}

static int is_named(int32_t number)
{
    return number == WARG_TRUE || number == WARG_FALSE ||
           (number <= WARG_NO_SUCH_PROOF && number >= WARG_ROOT_LENGTH) ||
           (number <= WARG_TRUNCATED && number >= WARG_NUMBER_TOO_LARGE) ||
           (number <= WARG_HASH_LENGTH && number >= WARG_TOO_MANY_PEERS);
}

/* Whether all calls on this bundle answer a number that the header names, and one that fits the root's length. */
static int answers(const uint8_t *bundle, size_t count, size_t at, size_t root_bytes)
{
    const int32_t given[] = {
        warg_check_entry(bundle, count, at, 0, root, 3, 1, root, root_bytes),
        warg_check_growth(bundle, count, at, 1, root, 32, 2, root, root_bytes),
        warg_check_inclusion(bundle, count, at, root, 3, root, root_bytes),
        warg_check_consistency(bundle, count, at, root, root_bytes, root, 32),
        warg_check_key(bundle, count, at, root, 3, root, 3, root, root_bytes),
        warg_check_absent(bundle, count, at, root, 3, root, root_bytes),
        warg_check_update(bundle, count, at, root, 3, root, 3, root, 2, root, root_bytes, root, 32),
        warg_check_insertion(bundle, count, at, root, 3, root, 3, root, 32, root, root_bytes),
        warg_check_record(bundle, count, at, root, 3, 5, root, root_bytes),
        warg_check_tree(bundle, count, 1, root, root_bytes, 2 + at, root, 32),
    };
    for (size_t i = 0; i < sizeof given / sizeof given[0]; i++)
        if (!is_named(given[i]) || (given[i] == WARG_ROOT_LENGTH) != (root_bytes != 32))
            return 0;
    return 1;
}

/* Reads the second word of each line, which is a bundle. */
static void read_bundles(void)
{
    char *line = NULL;
    size_t room = 0;
    while (bundle_count < MOST_BUNDLES && getline(&line, &room, stdin) > 0) {
        strtok(line, " \n");
        const char *word = strtok(NULL, " \n");
        size_t count = word == NULL || *word == '-' ? 0 : strlen(word) / 2;
        uint8_t *at = malloc(count + 1);
        for (size_t i = 0; i < count; i++)
            sscanf(word + 2 * i, "%2hhx", &at[i]);
        bundles[bundle_count].at = at;
        bundles[bundle_count++].count = count;
    }
    free(line);
}

/* A bundle with some bytes changed, and its end cut off at times. Each has its own block, so that a tool that
 * watches memory sees a byte beyond it. */
static int round_holds(void)
{
    size_t which = chance() % bundle_count;
    size_t count = bundles[which].count;
    if (count > 0 && chance() % 4 == 0)
        count -= chance() % count;
    uint8_t *bytes = malloc(count > 0 ? count : 1);
    memcpy(bytes, bundles[which].at, count);
    for (uint64_t left = chance() % 4; left > 0 && count > 0; left--)
        bytes[chance() % count] = (uint8_t)chance();
    int holds = answers(bytes, count, chance() % 3, 31 + chance() % 3);
    free(bytes);
    return holds;
}

static int mutate(unsigned long rounds)
{
    read_bundles();
    if (bundle_count == 0 || !answers(root, 0, 0, 32) || !answers(root, 0, 0, 0))
        return puts("no bundle was read, or a wrong answer for one of no bytes"), 1;
    for (unsigned long i = 0; i < rounds; i++)
        if (!round_holds()) {
            printf("round %lu: an answer that isn't named or doesn't fit the root's length\n", i);
            return 1;
        }
    printf("%lu mutated bundles, and each answer is one that the header names\n", rounds);
    return 0;
}

/* The greatest count of bytes that the calls have held at once. */
static size_t held, most;

void *__real_malloc(size_t);
void *__real_realloc(void *, size_t);
void __real_free(void *);

static void count_block(void *block, size_t before)
{
    held += malloc_usable_size(block) - before;
    if (held > most)
        most = held;
}

void *__wrap_malloc(size_t bytes)
{
    void *block = __real_malloc(bytes);
    if (block != NULL)
        count_block(block, 0);
    return block;
}

void *__wrap_realloc(void *old, size_t bytes)
{
    size_t before = old == NULL ? 0 : malloc_usable_size(old);
    void *block = __real_realloc(old, bytes);
    if (block != NULL)
        count_block(block, before);
    return block;
}

void __wrap_free(void *block)
{
    if (block != NULL)
        held -= malloc_usable_size(block);
    __real_free(block);
}

/* Fills a bundle of 65 MiB with a field again and again, or with one field of packed numbers, and prints how much
 * memory the calls for it ask for at once. A list that grows doubles its room, so just above a power of two is the
 * worst. */
static void measure(const char *what, const uint8_t *head, size_t head_bytes, const uint8_t *unit, size_t unit_bytes)
{
    size_t count = 65 * (size_t)MEBIBYTE;
    uint8_t *bytes = calloc(count, 1);
    memcpy(bytes, head, head_bytes);
    size_t end = head_bytes;
    while (end + unit_bytes <= count) {
        memcpy(bytes + end, unit, unit_bytes);
        end += unit_bytes;
    }
    if (head_bytes > 0) { /* a length of four bytes stands in front of the packed numbers */
        size_t packed = end - head_bytes;
        for (int i = 0; i < 4; i++)
            bytes[head_bytes - 4 + i] = (uint8_t)((packed >> (7 * i) & 127) | (i < 3 ? 128 : 0));
    }
    held = most = 0;
    int32_t log = warg_check_inclusion(bytes, end, 0, root, 1, root, 32);
    size_t for_log = most;
    held = most = 0;
    int32_t map = warg_check_key(bytes, end, 0, root, 1, root, 1, root, 32);
    printf("%s: a log bundle %.1f times (%d), a map bundle %.1f times (%d)\n", what, (double)for_log / end, log,
           (double)most / end, map);
    free(bytes);
}

int main(int count, char **words)
{
    if (count == 2 && strcmp(words[1], "memory") == 0) {
        measure("packed old lengths", (const uint8_t[]){ 0x12, 0, 0, 0, 0 }, 5, (const uint8_t[]){ 1 }, 1);
        measure("packed indices", (const uint8_t[]){ 0x1a, 0, 0, 0, 0 }, 5, (const uint8_t[]){ 1 }, 1);
        measure("empty digests of a log", (const uint8_t *)"", 0, (const uint8_t[]){ 0x22, 0 }, 2);
        measure("empty proofs of a map", (const uint8_t *)"", 0, (const uint8_t[]){ 0x0a, 0 }, 2);
        measure("proofs of an empty peer", (const uint8_t *)"", 0, (const uint8_t[]){ 0x0a, 2, 0x0a, 0 }, 4);
        return 0;
    }
    return mutate(count == 2 ? strtoul(words[1], NULL, 10) : 1000);
}
