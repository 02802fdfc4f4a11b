/* Answers the check lines of the vectors (docs/VECTORS.md) through the library: a line in, a line out.
 *
 *     cc -O2 -Wall -I ffi ffi/examples/check.c ffi/libwarg.a -o check && ./check < lines */
#define _GNU_SOURCE
#include <stdio.h>
#include <stdlib.h>
#include <string.h>

#include "warg.h"

enum { MOST_WORDS = 8 };

static const struct { int32_t number; const char *text; } ANSWERS[] = {
    { WARG_TRUE, "true" },
    { WARG_FALSE, "false" },
    { WARG_NO_SUCH_PROOF, "refused NoSuchProof" },
    { WARG_ROOT_LENGTH, "bad call" },
    { WARG_TRUNCATED, "refused Decode(Wire(Truncated))" },
    { WARG_BAD_VARINT, "refused Decode(Wire(BadVarint))" },
    { WARG_BAD_TAG, "refused Decode(Wire(BadTag))" },
    { WARG_GROUP, "refused Decode(Wire(Group))" },
    { WARG_BAD_WIRE_TYPE, "refused Decode(Wire(BadWireType))" },
    { WARG_WRONG_WIRE_TYPE, "refused Decode(Wire(WrongWireType))" },
    { WARG_NUMBER_TOO_LARGE, "refused Decode(Wire(NumberTooLarge))" },
    { WARG_HASH_LENGTH, "refused Decode(HashLength)" },
    { WARG_NOT_ASCENDING, "refused Decode(NotAscending)" },
    { WARG_TOO_MANY_PEERS, "refused Decode(TooManyPeers)" },
};

static const char *answer_text(int32_t number)
{
    for (size_t i = 0; i < sizeof ANSWERS / sizeof ANSWERS[0]; i++)
        if (ANSWERS[i].number == number)
            return ANSWERS[i].text;
    return "refused Memory";
}

/* The same for a path, whose bytes can have one fault alone. */
static const char *path_text(int32_t number)
{
    return number == WARG_HASH_LENGTH ? "refused HashLength" : answer_text(number);
}

/* How many bytes the hexadecimal digits of a word are, or `-` for none. */
static size_t count_of(const char *word)
{
    return strcmp(word, "-") == 0 ? 0 : strlen(word) / 2;
}

/* These bytes. They live until the program ends. */
static uint8_t *bytes_of(const char *word)
{
    uint8_t *bytes = malloc(count_of(word) + 1);
    if (bytes == NULL)
        exit(2);
    for (size_t i = 0, count = count_of(word); i < count; i++) {
        char digits[3] = { word[2 * i], word[2 * i + 1], 0 };
        bytes[i] = (uint8_t)strtoul(digits, NULL, 16);
    }
    return bytes;
}

static size_t number_of(const char *word)
{
    return strtoull(word, NULL, 10);
}

/* Splits a line at its spaces, and answers how many words it has. */
static int words_of(char *line, char *words[MOST_WORDS])
{
    int count = 0;
    for (char *word = strtok(line, " \n"); word && count < MOST_WORDS; word = strtok(NULL, " \n"))
        words[count++] = word;
    return count;
}

#define BYTES(i) bytes_of(w[i]), count_of(w[i])

static const char *answer(char *w[MOST_WORDS], int count)
{
    if (count == 5 && strcmp(w[0], "check_inclusion") == 0)
        return answer_text(warg_check_inclusion(BYTES(1), number_of(w[2]), BYTES(3), BYTES(4)));
    if (count == 5 && strcmp(w[0], "check_consistency") == 0)
        return answer_text(warg_check_consistency(BYTES(1), number_of(w[2]), BYTES(3), BYTES(4)));
    if (count == 6 && strcmp(w[0], "check_key") == 0)
        return answer_text(warg_check_key(BYTES(1), number_of(w[2]), BYTES(3), BYTES(4), BYTES(5)));
    if (count == 5 && strcmp(w[0], "check_absent") == 0)
        return answer_text(warg_check_absent(BYTES(1), number_of(w[2]), BYTES(3), BYTES(4)));
    if (count == 8 && strcmp(w[0], "check_update") == 0)
        return answer_text(warg_check_update(BYTES(1), number_of(w[2]), BYTES(3), BYTES(4), BYTES(5), BYTES(6),
                                             BYTES(7)));
    if (count == 7 && strcmp(w[0], "check_insertion") == 0)
        return answer_text(warg_check_insertion(BYTES(1), number_of(w[2]), BYTES(3), BYTES(4), BYTES(5), BYTES(6)));
    if (count == 7 && strcmp(w[0], "check_entry") == 0)
        return answer_text(warg_check_entry(BYTES(1), number_of(w[2]), number_of(w[3]), BYTES(4),
                                            number_of(w[5]), BYTES(6)));
    if (count == 7 && strcmp(w[0], "check_growth") == 0)
        return answer_text(warg_check_growth(BYTES(1), number_of(w[2]), number_of(w[3]), BYTES(4),
                                             number_of(w[5]), BYTES(6)));
    if (count == 6 && strcmp(w[0], "check_record") == 0)
        return path_text(warg_check_record(BYTES(1), number_of(w[2]), BYTES(3), number_of(w[4]), BYTES(5)));
    if (count == 6 && strcmp(w[0], "check_tree") == 0)
        return path_text(warg_check_tree(BYTES(1), number_of(w[2]), BYTES(3), number_of(w[4]), BYTES(5)));
    return "bad call";
}

int main(void)
{
    char *line = NULL;
    size_t room = 0;
    if (warg_version() != WARG_VERSION)
        return 2;
    while (getline(&line, &room, stdin) > 0) {
        char *words[MOST_WORDS];
        int count = words_of(line, words);
        puts(answer(words, count));
    }
    free(line);
    return 0;
}
