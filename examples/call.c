/* Prints the allocations of an image, from C:
 *
 *     tools/staticlib
 *     cc -Iinclude examples/call.c target/staticlib/libsir_capi.a -o target/call
 *     target/call IMAGE
 *
 * For each allocation a line: where it is made, its first local, and the stretches of blocks in which its memory is in use;
 * or "escaped" and why, where its pointer may be known elsewhere, so that its memory is never free.
 */
#include "sir_analyses.h"

#include <stdio.h>
#include <stdlib.h>

/* One byte more than an image may have, so that a longer file is seen to be too long. */
static uint8_t image[59904 + 1];

/* The most that is lent for an answer, in bytes. An image can be made whose allocations need more. */
#define MOST ((size_t)1 << 28)

static uint8_t *result;

/* All allocations, in a slice that is made longer until the answer has room. */
static sir_answer all_allocations(size_t length) {
    for (size_t room = 1 << 16;; room *= 4) {
        free(result);
        result = malloc(room);
        if (result == NULL) {
            return (sir_answer){SIR_REFUSED_SHORT_RESULT, 0};
        }
        sir_answer answer = sir_all_allocations(image, length, result, room);
        if (answer.number != SIR_REFUSED_SHORT_RESULT || room >= MOST) {
            return answer;
        }
    }
}

static uint32_t word(size_t at) {
    const uint8_t *bytes = result + 4 * at;
    return bytes[0] | (uint32_t)bytes[1] << 8 | (uint32_t)bytes[2] << 16 | (uint32_t)bytes[3] << 24;
}

static void print_interval(size_t at) {
    uint32_t start = word(at + 1), end = word(at + 2);
    printf(" b%u ", word(at));
    if (start == 0) {
        printf("start..");
    } else {
        printf("%u..", start - 1);
    }
    if (end == UINT32_MAX) {
        printf("end");
    } else {
        printf("%u", end - 1);
    }
}

/* What marked an allocation, from its flags. */
static void print_causes(uint32_t flags) {
    static const struct {
        uint32_t flag;
        const char *text;
    } causes[] = {
        {SIR_MARKED_BY_ESCAPING_OPERAND, "an escaping operand"},
        {SIR_MARKED_BY_RETURN, "a return"},
        {SIR_MARKED_BY_MEETING, "a meeting"},
    };
    const char *before = ": ";
    for (size_t i = 0; i < sizeof causes / sizeof causes[0]; i++) {
        if (flags & causes[i].flag) {
            printf("%s%s", before, causes[i].text);
            before = ", ";
        }
    }
}

/* The allocation whose words begin at an index. */
static void print_allocation(uint32_t allocation, size_t at) {
    int marked = word(at + 6) == 1;
    printf("a%u b%u op%u v%u %s", allocation, word(at), word(at + 1), word(at + 2), marked ? "escaped" : "kept");
    print_causes(word(at + 7));
    for (uint32_t i = 0; i < word(at + 8); i++) {
        print_interval(at + 9 + 3 * (size_t)i);
    }
    printf("\n");
}

int main(int count, char **words) {
    FILE *file = count == 2 ? fopen(words[1], "rb") : NULL;
    if (file == NULL) {
        fprintf(stderr, "usage: call IMAGE\n");
        return 2;
    }
    size_t length = fread(image, 1, sizeof image, file);
    fclose(file);
    sir_answer answer = all_allocations(length);
    if (answer.number != 0) {
        printf("refused %u\n", answer.number);
        return 1;
    }
    /* Each allocation stands after its length in words. */
    size_t at = 0;
    for (uint32_t allocation = 0; at < answer.length / 4; allocation++) {
        print_allocation(allocation, at + 1);
        at += 1 + word(at);
    }
    free(result);
    return 0;
}
