/* Follows a production check. The arguments are the limit and the L_urban of each car, in whole dB; prints the status after each
 * car, or the refusal. In the project's folder:
 *
 *     (cd crates/embed && rt lib)
 *     cc -o production bench/embedding/c/production.c crates/embed/out/libembed.a
 *     ./production 72 74 80 70 71
 */
#include "ruthimpo.h"

#include <stdio.h>

/* Puts a 16-bit number into `number`; answers 0 if the word is none. */
static int read_number(const char *word, uint16_t *number) {
    unsigned long value;
    char rest;
    if (sscanf(word, "%lu%c", &value, &rest) != 1 || value > UINT16_MAX) {
        return 0;
    }
    *number = (uint16_t)value;
    return 1;
}

static void offer(struct ruthimpo_production *check, uint16_t l_urban) {
    uint8_t status, wanted;
    size_t place;
    uint32_t refusal = ruthimpo_production_offer(check, l_urban, &place);
    if (refusal != RUTHIMPO_ACCEPTED) {
        printf("%u dB: refusal %u at %zu\n", l_urban, (unsigned)refusal, place);
        return;
    }
    ruthimpo_production_status(check, &status, &wanted);
    if (status == RUTHIMPO_OPEN) {
        printf("%u dB: open, %u more wanted\n", l_urban, wanted);
    } else {
        printf("%u dB: %s\n", l_urban, status == RUTHIMPO_CONFORMS ? "conforms" : "does not conform");
    }
}

int main(int count, char **arguments) {
    uint16_t limit, l_urban;
    int is_read = count >= 2 && read_number(arguments[1], &limit);
    for (int n = 2; n < count && is_read; n++) {
        is_read = read_number(arguments[n], &l_urban);
    }
    if (!is_read) {
        fprintf(stderr, "usage: production LIMIT [L_URBAN ...]\n");
        return 2;
    }

    struct ruthimpo_production check;
    ruthimpo_production_start(limit, &check);
    for (int n = 2; n < count; n++) {
        read_number(arguments[n], &l_urban);
        offer(&check, l_urban);
    }
    return 0;
}
