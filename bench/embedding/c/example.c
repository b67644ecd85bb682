/* Reads the sheet that its argument names, and prints L_urban with its verdict, or the refusal, and the line of the
 * evaluation program. In the project's folder:
 *
 *     (cd crates/embed && rt lib)
 *     cc -o example bench/embedding/c/example.c crates/embed/out/libembed.a
 *     ./example crates/evaluate/stdin
 */
#include "ruthimpo.h"

#include <stdio.h>

/* One byte more than the longest sheet, so that a longer one is refused for its size. */
static uint8_t sheet[32769];

static unsigned number_at(const uint8_t *record, enum ruthimpo_field at) {
    return record[at] + 256u * record[at + 1];
}

int main(int count, char **arguments) {
    FILE *file = count == 2 ? fopen(arguments[1], "rb") : NULL;
    if (file == NULL) {
        fprintf(stderr, "usage: example SHEET\n");
        return 2;
    }
    size_t bytes = fread(sheet, 1, sizeof sheet, file);
    int failed = ferror(file);
    fclose(file);
    if (failed) {
        fprintf(stderr, "%s cannot be read\n", arguments[1]);
        return 2;
    }

    uint8_t result[RUTHIMPO_RESULT_BYTES];
    size_t place;
    uint32_t refusal = ruthimpo_evaluate(sheet, bytes, result, sizeof result, &place);
    if (refusal == RUTHIMPO_ACCEPTED) {
        printf("L_urban %u dB(A): %s\n", number_at(result, RUTHIMPO_L_URBAN), result[RUTHIMPO_PASS] ? "pass" : "fail");
    } else {
        printf("refusal %u at %zu\n", (unsigned)refusal, place);
    }

    uint8_t line[RUTHIMPO_LINE_BYTES];
    size_t length = ruthimpo_line(sheet, bytes, line, sizeof line);
    return fwrite(line, 1, length, stdout) == length ? 0 : 1;
}
