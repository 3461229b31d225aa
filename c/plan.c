/* The library from C: `plan check` reads a network from standard input and says whether it is sound, `plan judge`, `plan census`,
 * `plan trail`, `plan cut` and `plan join` are the programs. The status is 0 for a sound network, a pass, a trail, a fragment or a joint
 * network, 1 for a finding or a silent box in a census, 2 for a refusal, 3 where there is no answer. */
#include "lnianotka.h"

#include <stdio.h>
#include <stdlib.h>
#include <string.h>

enum { fine = 0, finding = 1, refusal = 2, no_answer = 3 };

typedef size_t program(const uint8_t *input, size_t length, uint8_t *out, size_t room);

static int fail(const char *what)
{
    fprintf(stderr, "plan: %s\n", what);
    return no_answer;
}

/* Reads an input into a room of one byte more than the longest, so that a longer one shows. Gives NULL where there is no such room or a read
 * failed: a part of an input has no answer. */
static uint8_t *read_input(size_t longest, size_t *length)
{
    uint8_t *input = malloc(longest + 1);
    if (input == NULL) {
        return NULL;
    }
    *length = fread(input, 1, longest + 1, stdin);
    if (ferror(stdin)) {
        free(input);
        return NULL;
    }
    return input;
}

/* What the first byte of an answer tells. */
static int status_of(uint8_t first)
{
    switch (first) {
    case 'r':
        return refusal;
    case 'f':
        return finding;
    default:
        return fine;
    }
}

/* Whether a census names a silent box. No other answer has a line that begins so: a network begins with a zero byte and a trail with a
 * digit, and neither is a pass. */
static int silent_in(const uint8_t *text, size_t length)
{
    static const char word[] = "\nsilent ";
    if (length == 0 || text[0] != 'p') {
        return 0;
    }
    for (size_t at = 0; at + sizeof word - 1 <= length; at++) {
        if (memcmp(text + at, word, sizeof word - 1) == 0) {
            return 1;
        }
    }
    return 0;
}

static int answer(program *answer_to, size_t longest, size_t room)
{
    size_t length;
    uint8_t *input = read_input(longest, &length);
    uint8_t *out = malloc(room);
    if (input == NULL || out == NULL) {
        return fail("the input could not be read");
    }
    size_t written = answer_to(input, length, out, room);
    if (fwrite(out, 1, written, stdout) != written || fflush(stdout) != 0) {
        return fail("the answer could not be written");
    }
    if (silent_in(out, written)) {
        return finding;
    }
    return status_of(out[0]);
}

static int check(void)
{
    size_t length, place;
    uint8_t *network = read_input(lnianotka_judge_input(), &length);
    if (network == NULL) {
        return fail("the input could not be read");
    }
    unsigned number = lnianotka_check(network, length, &place);
    if (number == 0) {
        puts("sound");
    } else {
        printf("refused %u %zu\n", number, place);
    }
    if (fflush(stdout) != 0) {
        return fail("the answer could not be written");
    }
    return number == 0 ? fine : refusal;
}

int main(int count, char **words)
{
    if (count == 2 && strcmp(words[1], "check") == 0) {
        return check();
    }
    if (count == 2 && strcmp(words[1], "judge") == 0) {
        return answer(lnianotka_judge, lnianotka_judge_input(), lnianotka_judge_answer());
    }
    if (count == 2 && strcmp(words[1], "census") == 0) {
        return answer(lnianotka_census, lnianotka_judge_input(), lnianotka_census_answer());
    }
    if (count == 2 && strcmp(words[1], "trail") == 0) {
        return answer(lnianotka_trail, lnianotka_trail_input(), lnianotka_trail_answer());
    }
    if (count == 2 && strcmp(words[1], "cut") == 0) {
        return answer(lnianotka_cut, lnianotka_cut_input(), lnianotka_cut_answer());
    }
    if (count == 2 && strcmp(words[1], "join") == 0) {
        return answer(lnianotka_join, lnianotka_join_input(), lnianotka_join_answer());
    }
    return fail("usage: plan check < NETWORK, plan judge < PLAN, plan census < PLAN, plan trail < PLAN, plan cut < PLAN > FRAGMENT, or "
                "plan join < NETWORKS > NETWORK");
}
