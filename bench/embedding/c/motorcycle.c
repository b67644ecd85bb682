/* Prints the mean of the four levels that its arguments are, 1 and 2 left, 3 and 4 right, with its verdict against the limit
 * after them in whole dB, or the refusal. In the project's folder:
 *
 *     (cd crates/embed && rt lib)
 *     cc -o motorcycle bench/embedding/c/motorcycle.c crates/embed/out/libembed.a
 *     ./motorcycle 80.0 81.0 80.0 80.0 80
 */
#include "ruthimpo.h"

#include <stdio.h>
#include <string.h>

/* Puts the pattern of the nearest float into `pattern`; answers 0 if the word is no number. */
static int read_level(const char *word, uint32_t *pattern) {
    float level;
    char rest;
    if (sscanf(word, "%f%c", &level, &rest) != 1) {
        return 0;
    }
    memcpy(pattern, &level, sizeof level);
    return 1;
}

int main(int count, char **arguments) {
    uint32_t levels[4];
    unsigned long limit;
    char rest;
    int is_read = count == 6 && sscanf(arguments[5], "%lu%c", &limit, &rest) == 1 && limit <= UINT16_MAX;
    for (int n = 0; n < 4 && is_read; n++) {
        is_read = read_level(arguments[n + 1], &levels[n]);
    }
    if (!is_read) {
        fprintf(stderr, "usage: motorcycle LEVEL LEVEL LEVEL LEVEL LIMIT\n");
        return 2;
    }

    uint16_t mean;
    uint8_t pass;
    size_t place;
    uint32_t refusal = ruthimpo_motorcycle(levels, (uint16_t)limit, &mean, &pass, &place);
    if (refusal == RUTHIMPO_ACCEPTED) {
        printf("mean %u.%02u dB: %s\n", mean / 4u, mean % 4u * 25, pass ? "pass" : "fail");
    } else {
        printf("refusal %u at %zu\n", (unsigned)refusal, place);
    }
    return 0;
}
