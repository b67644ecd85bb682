/* Prints the test mass of a lorry with its band and the load, or the refusal. The arguments are the power in kW, with one decimal
 * or none, and in whole kg the unladen loads of the front and the rear axle and the rear axle's maximum; for a lorry of more than
 * two axles these are its two-axle stand-in's, and its own unladen mass comes after them. In the project's folder:
 *
 *     (cd crates/embed && rt lib)
 *     cc -o lorry bench/embedding/c/lorry.c crates/embed/out/libembed.a
 *     ./lorry 300.0 4000 3000 11501
 *     ./lorry 300.0 4000 3000 11500 9000
 */
#include "ruthimpo.h"

#include <stdio.h>
#include <stdlib.h>

static int is_digit(char byte) {
    return byte >= '0' && byte <= '9';
}

/* Puts a 16-bit number into `number`, as tenths if the word may have a decimal; answers 0 if the word is none. */
static int read_number(const char *word, int in_tenths, uint16_t *number) {
    char *rest;
    unsigned long value = strtoul(word, &rest, 10);
    if (!is_digit(word[0]) || value > UINT16_MAX) {
        return 0;
    }
    if (in_tenths) {
        value *= 10;
        if (rest[0] == '.' && is_digit(rest[1])) {
            value += (unsigned long)(rest[1] - '0');
            rest += 2;
        }
    }
    if (*rest != '\0' || value > UINT16_MAX) {
        return 0;
    }
    *number = (uint16_t)value;
    return 1;
}

/* Prints ten-thousandths of a kg in kg, with the decimals that they need. */
static void print_kg(uint64_t mass) {
    unsigned decimals = (unsigned)(mass % 10000);
    int digits = 4;
    printf("%llu", (unsigned long long)(mass / 10000));
    if (decimals == 0) {
        return;
    }
    for (; decimals % 10 == 0; decimals /= 10) {
        digits--;
    }
    printf(".%0*u", digits, decimals);
}

static void print_masses(const uint64_t masses[4]) {
    printf("test mass ");
    print_kg(masses[RUTHIMPO_TEST_MASS]);
    printf(" kg (");
    print_kg(masses[RUTHIMPO_LOWEST_MASS]);
    printf(" to ");
    print_kg(masses[RUTHIMPO_HIGHEST_MASS]);
    printf("), load ");
    print_kg(masses[RUTHIMPO_LOAD]);
    printf(" kg\n");
}

int main(int count, char **arguments) {
    uint16_t numbers[5];
    int is_read = count == 5 || count == 6;
    for (int n = 0; n < count - 1 && is_read; n++) {
        is_read = read_number(arguments[n + 1], n == 0, &numbers[n]);
    }
    if (!is_read) {
        fprintf(stderr, "usage: lorry POWER FRONT REAR REAR_MAX [OWN]\n");
        return 2;
    }

    uint64_t masses[4];
    size_t place;
    uint32_t refusal =
        count == 5 ? ruthimpo_lorry_two_axles(numbers[0], numbers[1], numbers[2], numbers[3], masses, &place)
                   : ruthimpo_lorry_more_axles(numbers[0], numbers[1], numbers[2], numbers[3], numbers[4], masses, &place);
    if (refusal == RUTHIMPO_ACCEPTED) {
        print_masses(masses);
    } else {
        printf("refusal %u at %zu\n", (unsigned)refusal, place);
    }
    return 0;
}
