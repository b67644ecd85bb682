/* Checks what ruthimpo.h says, on the worked sheet and its line, the two files that its arguments name, on motorcycles, on
 * production checks and on lorries. */
#define _POSIX_C_SOURCE 200809L
#include "ruthimpo.h"

#include <math.h>
#include <pthread.h>
#include <stdio.h>
#include <string.h>

enum { ROOM = 400, POISON = 0xA5, THREADS = 4, CALLS = 20000, ALIGNMENTS = 16 };

static uint8_t worked[ROOM * 2], line[ROOM];
static size_t worked_bytes, line_bytes;
static unsigned checks, differing;

static void check(int holds, const char *words, size_t at) {
    checks++;
    if (!holds) {
        differing++;
        printf("DIFFERS: %s, %zu\n", words, at);
    }
}

static int is_poison(const void *place, size_t count) {
    const uint8_t *bytes = place;
    for (size_t at = 0; at < count; at++) {
        if (bytes[at] != POISON) {
            return 0;
        }
    }
    return 1;
}

static int is_kept(const uint8_t *bytes, size_t from) {
    return is_poison(bytes + from, ROOM - from);
}

static void put(uint8_t *bytes, size_t at, unsigned number) {
    bytes[at] = number & 0xFF;
    bytes[at + 1] = number >> 8;
}

static unsigned number_at(const uint8_t *bytes, size_t at) {
    return bytes[at] + 256u * bytes[at + 1];
}

/* Changes of a 16-bit number of the worked sheet, each with its refusal. */
static const struct {
    enum ruthimpo_refusal refusal;
    size_t place, at;
    unsigned number;
} changes[] = {
    {RUTHIMPO_ACCEPTED, 0, 14, 72},                              /* the limit that it has */
    {RUTHIMPO_NO_VEHICLE, 0, 0, 0x0109},                         /* the first record closes */
    {RUTHIMPO_NO_CLOSING, 21, 32 * 21 + 2, 19},                  /* 19 runs for 20 */
    {RUTHIMPO_BROKEN_RECORD, 7, 32 * 7, 0x1102},                 /* gear 17 */
    {RUTHIMPO_PMR_OUT_OF_RANGE, 0, 4, 10},                       /* 1.0 kW */
    {RUTHIMPO_TOO_FEW, 2, 32 * 1 + 2, 0x0101},                   /* an acceleration run of gear 2 is struck */
    {RUTHIMPO_TOO_WIDE, 2, 32 * 1 + 10, 0x4299},                 /* one has 76.5 on the left for 74.0 */
    {RUTHIMPO_NOT_FALLING, 3, 32 * 9 + 18, 1500},                /* gear 4 reaches 150.0 km/h */
    {RUTHIMPO_NO_RULE, 0, 10, 3999},                             /* every gear turns above S */
    {RUTHIMPO_CONSTANT_SPEED_TOO_FEW, 3, 32 * 13 + 2, 0x0101},   /* a constant-speed run of gear 3 is struck */
    {RUTHIMPO_CONSTANT_SPEED_TOO_WIDE, 3, 32 * 13 + 10, 0x4289}, /* one has 68.5 on the left for 66.0 */
    /* the right background, before and after: above its range, at the end of it, where no run is valid, and beside 55.2 and 55.5,
     * over which the right levels at constant speed, 65.2 in gear 4 and 65.5 in gear 3, are 10.0 */
    {RUTHIMPO_BROKEN_RECORD, 0, 18, 1001},
    {RUTHIMPO_BROKEN_RECORD, 21, 32 * 21 + 6, 1001},
    {RUTHIMPO_TOO_FEW, 2, 18, 1000},
    {RUTHIMPO_TOO_FEW, 2, 32 * 21 + 6, 1000},
    {RUTHIMPO_ACCEPTED, 0, 18, 552},
    {RUTHIMPO_CONSTANT_SPEED_TOO_FEW, 4, 18, 553},
    {RUTHIMPO_CONSTANT_SPEED_TOO_FEW, 4, 32 * 21 + 6, 555},
    {RUTHIMPO_CONSTANT_SPEED_TOO_FEW, 3, 32 * 21 + 6, 556},
    /* the bytes after it have no name */
    {RUTHIMPO_BROKEN_RECORD, 0, 20, 0x0001},
    {RUTHIMPO_BROKEN_RECORD, 21, 32 * 21 + 8, 0x0001},
    /* a written limit at the ends of its range and outside of it, and beside a phase or a low car */
    {RUTHIMPO_BROKEN_RECORD, 0, 14, 1},
    {RUTHIMPO_BROKEN_RECORD, 0, 14, 49},
    {RUTHIMPO_ACCEPTED, 0, 14, 50},
    {RUTHIMPO_ACCEPTED, 0, 14, 100},
    {RUTHIMPO_BROKEN_RECORD, 0, 14, 101},
    {RUTHIMPO_BROKEN_RECORD, 0, 14, 256},
    {RUTHIMPO_BROKEN_RECORD, 0, 16, 0x0001},
    {RUTHIMPO_BROKEN_RECORD, 0, 16, 0x0100},
    /* a limit that is looked up, without a phase */
    {RUTHIMPO_NO_LIMIT_ENTRY, 0, 14, 0},
};

static void check_refusals(void) {
    for (size_t n = 0; n < sizeof changes / sizeof *changes; n++) {
        uint8_t sheet[sizeof worked], result[ROOM];
        size_t place = POISON;
        memcpy(sheet, worked, sizeof sheet);
        memset(result, POISON, sizeof result);
        put(sheet, changes[n].at, changes[n].number);
        uint32_t refusal = ruthimpo_evaluate(sheet, worked_bytes, result, sizeof result, &place);
        check(refusal == changes[n].refusal && place == changes[n].place, "refusal and place of change", n);
        check(is_kept(result, refusal == RUTHIMPO_ACCEPTED ? RUTHIMPO_RESULT_BYTES : 0), "result after change", n);
    }
}

/* Runs of a kind and gear: so many that are valid, of which some are so many dB louder on one side, then so many struck ones. */
struct group {
    unsigned kind, gear, valid, struck;
    float louder;
};

enum { ACCELERATION = 2, CONSTANT = 3, MOST_GROUPS = 5, MOST_RECORDS = 1024 };

#define WITHIN 2.0f
#define WIDE 2.1f

/* A gear whose rule chooses it alone, and a pair. */
#define ONE {ACCELERATION, 3, 4, 0, 0}
#define PAIR {ACCELERATION, 3, 4, 0, 0}, {ACCELERATION, 4, 4, 0, 0}

/* Sheets of such groups, each with its refusal. Gear 5 has the runs of gear 4. */
static const struct {
    enum ruthimpo_refusal refusal;
    size_t place;
    struct group groups[MOST_GROUPS];
} shortages[] = {
    /* no acceleration run, whatever there is at constant speed */
    {RUTHIMPO_TOO_FEW, 0, {{0}}},
    {RUTHIMPO_TOO_FEW, 0, {{CONSTANT, 3, 4, 0, 0}, {CONSTANT, 4, 4, 0, 0}}},
    {RUTHIMPO_TOO_FEW, 0, {{CONSTANT, 3, 20, 0, WIDE}, {CONSTANT, 4, 3, 0, 0}}},
    /* fewer than four acceleration runs that are close together, or a struck one as the fourth */
    {RUTHIMPO_TOO_FEW, 3, {{ACCELERATION, 3, 1, 0, 0}}},
    {RUTHIMPO_TOO_FEW, 3, {{ACCELERATION, 3, 3, 0, 0}}},
    {RUTHIMPO_TOO_FEW, 3, {{ACCELERATION, 3, 3, 1, 0}}},
    {RUTHIMPO_TOO_FEW, 3, {{ACCELERATION, 3, 3, 1, WIDE}}},
    {RUTHIMPO_TOO_WIDE, 3, {{ACCELERATION, 3, 4, 1, WIDE}}},
    /* many struck ones */
    {RUTHIMPO_TOO_FEW, 3, {{ACCELERATION, 3, 0, 1022, 0}}},
    {RUTHIMPO_TOO_FEW, 3, {{ACCELERATION, 3, 0, 20, 0}, {ACCELERATION, 3, 3, 20, WIDE}}},
    {RUTHIMPO_TOO_WIDE, 3, {{ACCELERATION, 3, 0, 20, 0}, {ACCELERATION, 3, 4, 20, WIDE}}},
    {RUTHIMPO_TOO_FEW, 5, {PAIR, {ACCELERATION, 5, 0, 6, 0}, {CONSTANT, 3, 4, 0, 0}, {CONSTANT, 4, 4, 0, 0}}},
    /* the lowest gear without a window decides, wherever its runs stand */
    {RUTHIMPO_TOO_WIDE, 2, {{ACCELERATION, 2, 4, 0, WIDE}, {ACCELERATION, 3, 3, 0, 0}}},
    {RUTHIMPO_TOO_WIDE, 2, {{ACCELERATION, 3, 3, 0, 0}, {ACCELERATION, 2, 20, 0, WIDE}}},
    {RUTHIMPO_TOO_WIDE, 2, {{ACCELERATION, 2, 17, 0, WIDE}, {ACCELERATION, 3, 4, 0, WIDE}}},
    {RUTHIMPO_TOO_FEW, 2, {{ACCELERATION, 2, 3, 0, 0}, {ACCELERATION, 3, 4, 0, WIDE}}},
    {RUTHIMPO_TOO_FEW, 2, {{ACCELERATION, 3, 20, 0, WIDE}, {ACCELERATION, 2, 3, 0, 0}}},
    {RUTHIMPO_TOO_FEW, 2, {{ACCELERATION, 2, 0, 4, 0}, {ACCELERATION, 3, 17, 0, WIDE}}},
    {RUTHIMPO_TOO_WIDE, 4, {ONE, {ACCELERATION, 4, 4, 0, WIDE}, {ACCELERATION, 5, 3, 0, 0}}},
    {RUTHIMPO_TOO_FEW, 4, {ONE, {ACCELERATION, 4, 3, 0, 0}, {ACCELERATION, 5, 4, 0, WIDE}}},
    /* the same at constant speed, for one gear */
    {RUTHIMPO_CONSTANT_SPEED_TOO_FEW, 3, {ONE}},
    {RUTHIMPO_CONSTANT_SPEED_TOO_FEW, 3, {ONE, {CONSTANT, 3, 3, 0, 0}}},
    {RUTHIMPO_CONSTANT_SPEED_TOO_FEW, 3, {ONE, {CONSTANT, 3, 3, 1, WIDE}}},
    {RUTHIMPO_CONSTANT_SPEED_TOO_WIDE, 3, {ONE, {CONSTANT, 3, 4, 1, WIDE}}},
    {RUTHIMPO_CONSTANT_SPEED_TOO_FEW, 3, {ONE, {CONSTANT, 3, 0, 1018, 0}}},
    {RUTHIMPO_CONSTANT_SPEED_TOO_FEW, 3, {ONE, {CONSTANT, 3, 0, 20, 0}, {CONSTANT, 3, 3, 20, WIDE}}},
    {RUTHIMPO_CONSTANT_SPEED_TOO_WIDE, 3, {ONE, {CONSTANT, 3, 0, 20, 0}, {CONSTANT, 3, 4, 20, WIDE}}},
    /* for a pair, of which the lower decides, and the higher if the lower has a window */
    {RUTHIMPO_CONSTANT_SPEED_TOO_WIDE, 3, {PAIR, {CONSTANT, 3, 4, 0, WIDE}, {CONSTANT, 4, 3, 0, 0}}},
    {RUTHIMPO_CONSTANT_SPEED_TOO_WIDE, 3, {PAIR, {CONSTANT, 4, 4, 0, WIDE}, {CONSTANT, 3, 20, 0, WIDE}}},
    {RUTHIMPO_CONSTANT_SPEED_TOO_FEW, 3, {PAIR, {CONSTANT, 3, 3, 0, 0}, {CONSTANT, 4, 4, 0, WIDE}}},
    {RUTHIMPO_CONSTANT_SPEED_TOO_WIDE, 4, {PAIR, {CONSTANT, 3, 4, 0, 0}, {CONSTANT, 4, 17, 0, WIDE}}},
    {RUTHIMPO_CONSTANT_SPEED_TOO_FEW, 4, {PAIR, {CONSTANT, 3, 4, 0, 0}, {CONSTANT, 4, 3, 0, 0}}},
    /* 7 and 14 before 8, 10 and 15, and 8 before 10 and 15 */
    {RUTHIMPO_TOO_WIDE, 3, {{ACCELERATION, 3, 4, 0, WIDE}, {ACCELERATION, 4, 4, 0, 0}, {ACCELERATION, 5, 4, 0, 0}}},
    {RUTHIMPO_TOO_FEW, 3, {{ACCELERATION, 3, 3, 0, 0}, {ACCELERATION, 4, 4, 0, 0}, {ACCELERATION, 5, 4, 0, 0}}},
    {RUTHIMPO_TOO_WIDE, 5, {PAIR, {ACCELERATION, 5, 4, 0, WIDE}, {CONSTANT, 3, 3, 0, 0}}},
    {RUTHIMPO_TOO_FEW, 5, {PAIR, {ACCELERATION, 5, 3, 0, 0}, {CONSTANT, 3, 4, 0, WIDE}}},
    {RUTHIMPO_NOT_FALLING, 4, {{ACCELERATION, 4, 4, 0, 0}, {ACCELERATION, 5, 4, 0, 0}, {CONSTANT, 4, 4, 0, WIDE}}},
    /* 2.0 dB are within a window, a window may come last, and a gear that is not chosen needs none at constant speed */
    {RUTHIMPO_ACCEPTED, 0, {{ACCELERATION, 3, 4, 0, WITHIN}, {CONSTANT, 3, 4, 0, WITHIN}}},
    {RUTHIMPO_ACCEPTED, 0, {{ACCELERATION, 3, 20, 0, WIDE}, ONE, {CONSTANT, 3, 300, 0, WIDE}, {CONSTANT, 3, 4, 0, 0}}},
    {RUTHIMPO_ACCEPTED, 0, {ONE, {CONSTANT, 3, 4, 0, 0}, {CONSTANT, 4, 4, 0, WIDE}, {CONSTANT, 5, 3, 0, 0}}},
};

/* The first run of the worked sheet that has this kind and gear, for a gear above 4 that of gear 4. */
static const uint8_t *worked_run(unsigned kind, unsigned gear) {
    unsigned known = gear < 4 ? gear : 4;
    return worked + 32 * (kind == ACCELERATION ? 4 * known - 7 : 4 * known + 1);
}

/* Puts a group behind so many records; answers how many there are then. Of its runs, one in so many as `step` is louder. */
static size_t put_group(uint8_t *sheet, size_t records, const struct group *group, size_t side, unsigned step) {
    for (unsigned n = 0; n < group->valid + group->struck; n++) {
        uint8_t *run = sheet + 32 * records++;
        float level;
        memcpy(run, worked_run(group->kind, group->gear), 32);
        run[1] = group->gear;
        run[2] = n >= group->valid;
        memcpy(&level, run + side, sizeof level);
        level += n % step == 0 ? group->louder : 0;
        memcpy(run + side, &level, sizeof level);
    }
    return records;
}

/* Puts a sheet of groups; answers its bytes. */
static size_t put_groups(uint8_t *sheet, const struct group groups[MOST_GROUPS], size_t side, unsigned step) {
    size_t records = 1;
    memcpy(sheet, worked, 32);
    for (size_t n = 0; n < MOST_GROUPS; n++) {
        records = put_group(sheet, records, &groups[n], side, step);
    }
    memcpy(sheet + 32 * records, worked + 32 * 21, 32);
    put(sheet, 32 * records + 2, records - 1);
    return 32 * (records + 1);
}

/* A sheet of groups, with the loud side at 8 or 12. */
static void check_groups(enum ruthimpo_refusal expected, size_t expected_place, const struct group groups[MOST_GROUPS],
                         size_t side, unsigned step, size_t at) {
    static uint8_t sheet[32 * MOST_RECORDS];
    uint8_t result[ROOM], out[ROOM];
    char refused[ROOM];
    size_t place = POISON, bytes = put_groups(sheet, groups, side, step);
    memset(result, POISON, sizeof result);
    memset(out, POISON, sizeof out);
    uint32_t refusal = ruthimpo_evaluate(sheet, bytes, result, sizeof result, &place);
    check(refusal == expected && place == expected_place, "refusal and place of groups", at);
    check(is_kept(result, refusal == RUTHIMPO_ACCEPTED ? RUTHIMPO_RESULT_BYTES : 0), "result of groups", at);
    size_t length = ruthimpo_line(sheet, bytes, out, sizeof out);
    check(is_kept(out, length), "bytes after the line of groups", at);
    if (expected != RUTHIMPO_ACCEPTED) {
        size_t said = sprintf(refused, "REFUSED %u %zu\n", expected, expected_place);
        check(length == said && memcmp(out, refused, said) == 0, "line of groups", at);
    }
}

/* Wide runs of one gear, from one to as many as a sheet has room for beside four others. */
static void check_counts(size_t side, unsigned step) {
    for (unsigned valid = 1; valid <= MOST_RECORDS - 6; valid++) {
        const struct group alone[MOST_GROUPS] = {{ACCELERATION, 3, valid, 0, WIDE}};
        const struct group after[MOST_GROUPS] = {ONE, {CONSTANT, 3, valid, 0, WIDE}};
        check_groups(valid < 4 ? RUTHIMPO_TOO_FEW : RUTHIMPO_TOO_WIDE, 3, alone, side, step, valid);
        check_groups(valid < 4 ? RUTHIMPO_CONSTANT_SPEED_TOO_FEW : RUTHIMPO_CONSTANT_SPEED_TOO_WIDE, 3, after, side, step, valid);
    }
}

/* If each second, third or fourth run of a wide group is louder, any four neighbours have a louder one and another. */
static void check_shortages(void) {
    for (unsigned step = 2; step <= 4; step++) {
        for (size_t side = 8; side <= 12; side += 4) {
            for (size_t n = 0; n < sizeof shortages / sizeof *shortages; n++) {
                check_groups(shortages[n].refusal, shortages[n].place, shortages[n].groups, side, step, n);
            }
            check_counts(side, step);
        }
    }
}

/* The worked sheet's background fields, each four with the C that it leads to; nothing else of the result changes. Over 55.0 the
 * levels at constant speed lose 0.4 in gear 3 and 0.5 in gear 4, on the left from 66.0 and 65.0, on the right from 65.5 and 65.2.
 * Those of acceleration keep. */
static const size_t background_places[] = {12, 18, 32 * 21 + 4, 32 * 21 + 6};
static const struct {
    unsigned before_and_after[4], c;
} backgrounds[] = {
    {{400, 0, 400, 0}, 658},   /* as they stand: 66.0 and 65.2 */
    {{550, 0, 400, 0}, 654},   /* 55.0 on both sides: 65.6 and 64.7 */
    {{550, 400, 400, 0}, 655}, /* 55.0 on the left alone: 65.6 and 65.2 */
    {{400, 0, 550, 400}, 655},
    {{400, 550, 400, 0}, 658}, /* 55.0 on the right alone: 66.0 and 65.0, weighed 65.78 */
    {{400, 1, 400, 550}, 658},
    {{400, 1, 550, 0}, 654},   /* a right 0 is the left 55.0 of its record, whatever the other record has on the right */
    {{550, 0, 400, 1}, 654},
};

/* The result record of the worked sheet with such a C. */
static void put_result(uint8_t *record, unsigned c) {
    const uint8_t bytes[RUTHIMPO_RESULT_BYTES] = {3, 3, 4, 78, 29, 1};
    const unsigned numbers[] = {719, c, 70, 106, 149, 667, 149};
    memcpy(record, bytes, sizeof bytes);
    for (size_t n = 0; n < sizeof numbers / sizeof *numbers; n++) {
        put(record, RUTHIMPO_W + 2 * n, numbers[n]);
    }
}

static void check_backgrounds(void) {
    for (size_t n = 0; n < sizeof backgrounds / sizeof *backgrounds; n++) {
        uint8_t sheet[sizeof worked], result[ROOM], expected[ROOM];
        size_t place = POISON;
        memcpy(sheet, worked, sizeof sheet);
        for (size_t at = 0; at < 4; at++) {
            put(sheet, background_places[at], backgrounds[n].before_and_after[at]);
        }
        memset(result, POISON, sizeof result);
        memset(expected, POISON, sizeof expected);
        put_result(expected, backgrounds[n].c);
        uint32_t refusal = ruthimpo_evaluate(sheet, worked_bytes, result, sizeof result, &place);
        check(refusal == RUTHIMPO_ACCEPTED && place == 0, "acceptance of backgrounds", n);
        check(memcmp(result, expected, sizeof expected) == 0, "result of backgrounds", n);
    }
}

/* The worked sheet with a limit that is looked up, by its category, power, phase and byte of low cars, and the record whose byte 1
 * is 17, or 0 for none, each with its refusal. A power of 73 is PMR 4.9. */
static const struct {
    enum ruthimpo_refusal refusal;
    size_t place;
    unsigned category, power, phase, low_car, broken;
} without_limit[] = {
    {RUTHIMPO_NO_LIMIT_FOR_N1, 0, 2, 1000, 1, 0, 0},
    {RUTHIMPO_NO_LIMIT_FOR_N1, 0, 2, 1000, 0, 0, 0},
    {RUTHIMPO_NO_LIMIT_FOR_N1, 0, 2, 1000, 9, 7, 0}, /* 11 before 12 */
    {RUTHIMPO_NO_LIMIT_ENTRY, 0, 1, 1000, 0, 0, 0},
    {RUTHIMPO_NO_LIMIT_ENTRY, 0, 1, 1000, 0, 1, 0},
    {RUTHIMPO_NO_LIMIT_ENTRY, 0, 1, 1000, 4, 0, 0},
    {RUTHIMPO_NO_LIMIT_ENTRY, 0, 1, 1000, 255, 1, 0},
    {RUTHIMPO_NO_LIMIT_ENTRY, 0, 1, 1000, 1, 2, 0},
    {RUTHIMPO_NO_LIMIT_ENTRY, 0, 1, 1000, 3, 255, 0},
    {RUTHIMPO_BROKEN_RECORD, 0, 3, 1000, 1, 0, 0}, /* 5 before 11 and 12 */
    {RUTHIMPO_BROKEN_RECORD, 7, 2, 1000, 9, 7, 7},
    {RUTHIMPO_BROKEN_RECORD, 7, 1, 1000, 0, 0, 7},
    {RUTHIMPO_BROKEN_RECORD, 7, 1, 1000, 1, 0, 7},
    {RUTHIMPO_BROKEN_RECORD, 21, 2, 1000, 1, 0, 21},
    {RUTHIMPO_BROKEN_RECORD, 21, 1, 1000, 0, 0, 21},
    {RUTHIMPO_NO_LIMIT_FOR_N1, 0, 2, 73, 1, 0, 0}, /* 11 and 12 before 6 */
    {RUTHIMPO_NO_LIMIT_ENTRY, 0, 1, 73, 0, 0, 0},
    {RUTHIMPO_PMR_OUT_OF_RANGE, 0, 1, 73, 1, 0, 0},
};

static void put_class(uint8_t *sheet, unsigned phase, unsigned low_car) {
    put(sheet, 14, 0);
    put(sheet, 16, phase + 256 * low_car);
}

static void check_without_limit(void) {
    for (size_t n = 0; n < sizeof without_limit / sizeof *without_limit; n++) {
        uint8_t sheet[sizeof worked], result[ROOM];
        size_t place = POISON;
        memcpy(sheet, worked, sizeof sheet);
        sheet[1] = without_limit[n].category;
        put(sheet, 4, without_limit[n].power);
        put_class(sheet, without_limit[n].phase, without_limit[n].low_car);
        if (without_limit[n].broken != 0) {
            sheet[32 * without_limit[n].broken + 1] = 17;
        }
        memset(result, POISON, sizeof result);
        uint32_t refusal = ruthimpo_evaluate(sheet, worked_bytes, result, sizeof result, &place);
        check(refusal == without_limit[n].refusal && place == without_limit[n].place, "refusal and place without a limit", n);
        check(is_kept(result, 0), "result without a limit", n);
    }
}

/* The worked sheet has L_urban 70 and PMR 66.7. Looked up, its limits are 72, 70 and 68, of low cars too: it fails in phase 3
 * alone, and nothing else of its result changes. */
static void check_worked_by_class(void) {
    for (unsigned phase = 1; phase <= 3; phase++) {
        for (unsigned low_car = 0; low_car <= 1; low_car++) {
            uint8_t sheet[sizeof worked], result[ROOM], expected[ROOM];
            size_t place = POISON;
            memcpy(sheet, worked, sizeof sheet);
            put_class(sheet, phase, low_car);
            memset(result, POISON, sizeof result);
            memset(expected, POISON, sizeof expected);
            put_result(expected, 658);
            expected[RUTHIMPO_PASS] = phase < 3;
            uint32_t refusal = ruthimpo_evaluate(sheet, worked_bytes, result, sizeof result, &place);
            check(refusal == RUTHIMPO_ACCEPTED && place == 0, "acceptance of the worked sheet by class in phase", phase);
            check(memcmp(result, expected, sizeof expected) == 0, "result of the worked sheet by class in phase", phase);
        }
    }
}

/* Power and mass with the rounded PMR in tenths, and the limits of phases 1 to 3: at the ends of PMR, on both sides of each PMR at
 * which the limits change, and as near to these as rounding parts them: 120.04 is 120.0, and 120.05 is 120.1. */
static const struct {
    unsigned power, mass, pmr, limits[3], limits_of_low_cars[3];
} classes[] = {
    {75, 1500, 50, {72, 70, 68}, {72, 70, 68}},
    {1800, 1500, 1200, {72, 70, 68}, {72, 70, 68}},
    {6002, 5000, 1200, {72, 70, 68}, {72, 70, 68}},
    {2401, 2000, 1201, {73, 71, 69}, {73, 71, 69}},
    {1801, 1500, 1201, {73, 71, 69}, {73, 71, 69}},
    {2400, 1500, 1600, {73, 71, 69}, {73, 71, 69}},
    {8002, 5000, 1600, {73, 71, 69}, {73, 71, 69}},
    {3201, 2000, 1601, {75, 73, 71}, {75, 73, 71}},
    {2401, 1500, 1601, {75, 73, 71}, {75, 73, 71}},
    {3000, 1500, 2000, {75, 73, 71}, {75, 73, 71}},
    {10002, 5000, 2000, {75, 73, 71}, {75, 73, 71}},
    {4001, 2000, 2001, {75, 73, 71}, {75, 74, 72}},
    {3001, 1500, 2001, {75, 73, 71}, {75, 74, 72}},
    {9000, 1500, 6000, {75, 73, 71}, {75, 74, 72}},
};

/* The worked sheet with so many dB(A) as every level, and no acceleration but in gear 3: L_urban is that level for any PMR. */
static void put_level(uint8_t *sheet, unsigned decibels) {
    float level = (float)decibels;
    for (size_t n = 1; n <= 20; n++) {
        uint8_t *run = sheet + 32 * n;
        run[0] = run[1] == 3 ? run[0] : 3;
        memcpy(run + 8, &level, sizeof level);
        memcpy(run + 12, &level, sizeof level);
    }
}

/* An L_urban at the limit of a class and phase, which passes, or 1 dB above it. */
static void check_at_limit(size_t n, unsigned low_car, unsigned phase, unsigned above) {
    unsigned limit = (low_car ? classes[n].limits_of_low_cars : classes[n].limits)[phase - 1];
    uint8_t sheet[sizeof worked], result[ROOM];
    size_t place = POISON;
    memcpy(sheet, worked, sizeof sheet);
    put(sheet, 4, classes[n].power);
    put(sheet, 6, classes[n].mass);
    put_class(sheet, phase, low_car);
    put_level(sheet, limit + above);
    memset(result, POISON, sizeof result);
    uint32_t refusal = ruthimpo_evaluate(sheet, worked_bytes, result, sizeof result, &place);
    check(refusal == RUTHIMPO_ACCEPTED && place == 0, "acceptance by class", n);
    check(number_at(result, RUTHIMPO_PMR) == classes[n].pmr, "PMR by class", n);
    check(number_at(result, RUTHIMPO_L_URBAN) == limit + above, "L_urban by class", n);
    check(result[RUTHIMPO_PASS] == (above == 0), "pass by class", n);
    check(is_kept(result, RUTHIMPO_RESULT_BYTES), "bytes after a result by class", n);
}

static void check_classes(void) {
    for (size_t n = 0; n < sizeof classes / sizeof *classes; n++) {
        for (unsigned low_car = 0; low_car <= 1; low_car++) {
            for (unsigned phase = 1; phase <= 3; phase++) {
                check_at_limit(n, low_car, phase, 0);
                check_at_limit(n, low_car, phase, 1);
            }
        }
    }
}

static void check_null(void) {
    uint8_t result[ROOM], out[ROOM];
    size_t place = POISON;
    memset(result, POISON, sizeof result);
    memset(out, POISON, sizeof out);
    check(ruthimpo_evaluate(NULL, 0, result, sizeof result, &place) == RUTHIMPO_WRONG_SIZE && place == 0, "NULL sheet", 0);
    check(is_kept(result, 0), "result of a NULL sheet", 0);
    place = POISON;
    check(ruthimpo_evaluate(worked, worked_bytes, NULL, 0, &place) == RUTHIMPO_SHORT_BUFFER && place == 0, "NULL result", 0);
    check(ruthimpo_evaluate(NULL, 0, NULL, 0, &place) == RUTHIMPO_SHORT_BUFFER, "NULL sheet and result", 0);
    check(ruthimpo_line(NULL, 0, out, sizeof out) == 12 && memcmp(out, "REFUSED 2 0\n", 12) == 0, "line of a NULL sheet", 0);
    check(ruthimpo_line(worked, worked_bytes, NULL, 0) == 0, "line into NULL", 0);
}

static void check_line_buffers(void) {
    for (size_t size = 0; size <= ROOM; size++) {
        uint8_t out[ROOM];
        memset(out, POISON, sizeof out);
        size_t length = ruthimpo_line(worked, worked_bytes, out, size);
        check(length == (size < RUTHIMPO_LINE_BYTES ? 0 : line_bytes), "length of a line into bytes", size);
        check(memcmp(out, line, length) == 0 && is_kept(out, length), "bytes of a line into bytes", size);
    }
}

static void check_alignments(void) {
    for (size_t offset = 0; offset < ALIGNMENTS; offset++) {
        uint8_t sheet[sizeof worked + ALIGNMENTS], result[ROOM], expected[ROOM], out[ROOM + ALIGNMENTS];
        size_t place;
        memcpy(sheet + offset, worked, worked_bytes);
        ruthimpo_evaluate(worked, worked_bytes, expected, RUTHIMPO_RESULT_BYTES, &place);
        uint32_t refusal = ruthimpo_evaluate(sheet + offset, worked_bytes, result + offset, RUTHIMPO_RESULT_BYTES, &place);
        check(refusal == 0 && memcmp(result + offset, expected, RUTHIMPO_RESULT_BYTES) == 0, "result at offset", offset);
        check(ruthimpo_line(sheet + offset, worked_bytes, out + offset, ROOM) == line_bytes, "length at offset", offset);
        check(memcmp(out + offset, line, line_bytes) == 0, "line at offset", offset);
    }
}

/* A motorcycle by its levels and limit, with its mean and pass, or with its refusal and place. */
struct motorcycle {
    union {
        float levels[4];
        uint32_t patterns[4];
    };
    uint16_t limit, mean;
    uint8_t pass;
    enum ruthimpo_refusal refusal;
    size_t place;
};

static const struct motorcycle motorcycles[] = {
    {{{80.0f, 81.0f, 80.0f, 80.0f}}, 80, 317, 1, RUTHIMPO_ACCEPTED, 0},
    {{{80.0f, 81.0f, 80.0f, 80.0f}}, 79, 317, 0, RUTHIMPO_ACCEPTED, 0},
    {{{73.5f, 73.4f, 72.4f, 72.5f}}, 72, 288, 1, RUTHIMPO_ACCEPTED, 0},
    {{{72.46f, 72.0f, 72.0f, 72.0f}}, 71, 285, 0, RUTHIMPO_ACCEPTED, 0}, /* 72.5, then 73 */
    {{{72.45f, 72.0f, 72.0f, 72.0f}}, 71, 284, 1, RUTHIMPO_ACCEPTED, 0}, /* the float is below 72.45 */
    {{{20.0f, 20.0f, 20.0f, 20.0f}}, 19, 76, 1, RUTHIMPO_ACCEPTED, 0},
    {{{20.0f, 20.0f, 20.0f, 20.0f}}, 18, 76, 0, RUTHIMPO_ACCEPTED, 0},
    {{{140.0f, 140.0f, 140.0f, 140.0f}}, 139, 556, 1, RUTHIMPO_ACCEPTED, 0},
    {{{140.0f, 140.0f, 140.0f, 140.0f}}, 138, 556, 0, RUTHIMPO_ACCEPTED, 0},
    {{{80.0f, 80.0f, 80.0f, 80.0f}}, 0, 316, 0, RUTHIMPO_ACCEPTED, 0},
    {{{80.0f, 80.0f, 80.0f, 80.0f}}, 16384, 316, 1, RUTHIMPO_ACCEPTED, 0}, /* four times the limit is 2^16 */
    {{{80.0f, 80.0f, 80.0f, 80.0f}}, 16384 + 78, 316, 1, RUTHIMPO_ACCEPTED, 0},
    {{{80.0f, 80.0f, 80.0f, 80.0f}}, 32768, 316, 1, RUTHIMPO_ACCEPTED, 0},
    {{{80.0f, 80.0f, 80.0f, 80.0f}}, 65535, 316, 1, RUTHIMPO_ACCEPTED, 0},
    {{{80.4f, 82.4f, 80.0f, 80.0f}}, 80, 318, 1, RUTHIMPO_ACCEPTED, 0},
    {{{80.4f, 82.5f, 80.0f, 80.0f}}, 80, 0, 0, RUTHIMPO_SIDE_FAR_APART, 1},
    {{{83.0f, 80.0f, 80.0f, 83.0f}}, 80, 0, 0, RUTHIMPO_SIDE_FAR_APART, 1},
    {{{80.0f, 82.4f, 82.5f, 80.0f}}, 80, 0, 0, RUTHIMPO_SIDE_FAR_APART, 2},
    {{{140.1f, 83.0f, 80.0f, 83.0f}}, 80, 0, 0, RUTHIMPO_LEVEL_OUT_OF_RANGE, 1},
    {{{80.0f, INFINITY, 80.0f, NAN}}, 80, 0, 0, RUTHIMPO_LEVEL_OUT_OF_RANGE, 2},
    {{{20.0f, 140.0f, 19.999998f, 80.0f}}, 80, 0, 0, RUTHIMPO_LEVEL_OUT_OF_RANGE, 3},
    {{{80.0f, 80.0f, 80.0f, -80.0f}}, 80, 0, 0, RUTHIMPO_LEVEL_OUT_OF_RANGE, 4},
};

/* A call whose mean, pass and place stand between poisoned ones. A refusal keeps mean and pass, and no call writes a level. */
static void check_motorcycle(const struct motorcycle *one, const char *words, size_t at) {
    uint32_t patterns[4];
    uint16_t means[3], mean_poison;
    uint8_t passes[3];
    size_t places[3], place_poison;
    memcpy(patterns, one->patterns, sizeof patterns);
    memset(means, POISON, sizeof means);
    memset(&mean_poison, POISON, sizeof mean_poison);
    memset(passes, POISON, sizeof passes);
    memset(places, POISON, sizeof places);
    memset(&place_poison, POISON, sizeof place_poison);
    uint32_t refusal = ruthimpo_motorcycle(patterns, one->limit, &means[1], &passes[1], &places[1]);
    int is_accepted = one->refusal == RUTHIMPO_ACCEPTED;
    check(refusal == one->refusal && places[1] == one->place, words, at);
    check(means[1] == (is_accepted ? one->mean : mean_poison), "mean of a motorcycle", at);
    check(passes[1] == (is_accepted ? one->pass : POISON), "pass of a motorcycle", at);
    check(means[0] == mean_poison && means[2] == mean_poison, "what stands beside the mean", at);
    check(passes[0] == POISON && passes[2] == POISON, "what stands beside the pass", at);
    check(places[0] == place_poison && places[2] == place_poison, "what stands beside the place", at);
    check(memcmp(patterns, one->patterns, sizeof patterns) == 0, "levels of a motorcycle", at);
}

/* No levels: beside 20.0 and 140.0, infinities, quiet and signalling NaNs, zeros, subnormals, with a minus, the largest. */
static const uint32_t no_levels[] = {
    0x419FFFFF, 0x430C0001, 0x7F800000, 0xFF800000, 0x7FC00000, 0xFFC00000, 0x7F800001, 0xFFBFFFFF, 0x7FFFFFFF,
    0xFFFFFFFF, 0x00000000, 0x80000000, 0x00000001, 0x807FFFFF, 0x00800000, 0xC2A00000, 0xC1A00000, 0x7F7FFFFF,
};

static void check_motorcycles(void) {
    for (size_t n = 0; n < sizeof motorcycles / sizeof *motorcycles; n++) {
        check_motorcycle(&motorcycles[n], "refusal and place of motorcycle", n);
    }
    for (size_t number = 1; number <= 4; number++) {
        for (size_t n = 0; n < sizeof no_levels / sizeof *no_levels; n++) {
            struct motorcycle one = {{{20.0f, 140.0f, 140.0f, 20.0f}}, 80, 0, 0, RUTHIMPO_LEVEL_OUT_OF_RANGE, number};
            one.patterns[number - 1] = no_levels[n];
            check_motorcycle(&one, "refusal and place of no level", n);
        }
    }
}

/* What the header says of each stage: its status and cars wanted, what is answered to a car, and the stage after one that meets
 * the requirement and after one that fails it. */
struct stage {
    uint8_t status, wanted;
    enum ruthimpo_refusal refusal;
    size_t place;
    uint16_t after_met, after_failed;
};

static const struct stage stages[] = {
    {RUTHIMPO_OPEN, 1, RUTHIMPO_ACCEPTED, 0, 1, 2},
    {RUTHIMPO_CONFORMS, 0, RUTHIMPO_CAR_AFTER_VERDICT, 1, 1, 1},
    {RUTHIMPO_OPEN, 2, RUTHIMPO_ACCEPTED, 0, 3, 4},
    {RUTHIMPO_OPEN, 1, RUTHIMPO_ACCEPTED, 0, 5, 6},
    {RUTHIMPO_OPEN, 1, RUTHIMPO_ACCEPTED, 0, 6, 6},
    {RUTHIMPO_CONFORMS, 0, RUTHIMPO_CAR_AFTER_VERDICT, 3, 5, 5},
    {RUTHIMPO_DOES_NOT_CONFORM, 0, RUTHIMPO_CAR_AFTER_VERDICT, 3, 6, 6},
};
enum { STAGES = sizeof stages / sizeof *stages };

static int is_check(const struct ruthimpo_production *one, uint16_t limit, uint16_t stage) {
    return one->limit == limit && one->stage == stage;
}

/* A start between poisoned checks. */
static void check_start(uint16_t limit) {
    struct ruthimpo_production ones[3];
    memset(ones, POISON, sizeof ones);
    ruthimpo_production_start(limit, &ones[1]);
    check(is_check(&ones[1], limit, 0), "start against limit", limit);
    check(is_poison(&ones[0], sizeof *ones) && is_poison(&ones[2], sizeof *ones), "what stands beside a start", limit);
}

/* A car whose check and place stand between poisoned ones. */
static void check_offer(struct ruthimpo_production one, const struct stage *said, uint16_t l_urban) {
    struct ruthimpo_production ones[3];
    size_t places[3];
    memset(ones, POISON, sizeof ones);
    memset(places, POISON, sizeof places);
    ones[1] = one;
    uint32_t refusal = ruthimpo_production_offer(&ones[1], l_urban, &places[1]);
    uint16_t after = l_urban <= one.limit + 1ul ? said->after_met : said->after_failed;
    check(refusal == said->refusal && places[1] == said->place, "answer to a car at stage", one.stage);
    check(is_check(&ones[1], one.limit, after), "check after a car at stage", one.stage);
    check(is_poison(&ones[0], sizeof *ones) && is_poison(&ones[2], sizeof *ones), "what stands beside the check", one.stage);
    check(is_poison(&places[0], sizeof *places) && is_poison(&places[2], sizeof *places), "what stands beside its place", one.stage);
}

/* A status and a number of cars wanted between poisoned ones. */
static void check_status(struct ruthimpo_production one, const struct stage *said, uint32_t refusal) {
    struct ruthimpo_production kept = one;
    uint8_t statuses[3], wanted[3];
    memset(statuses, POISON, sizeof statuses);
    memset(wanted, POISON, sizeof wanted);
    check(ruthimpo_production_status(&one, &statuses[1], &wanted[1]) == refusal, "answer on the status of stage", one.stage);
    check(statuses[1] == said->status && wanted[1] == said->wanted, "status and cars wanted of stage", one.stage);
    check(statuses[0] == POISON && statuses[2] == POISON, "what stands beside the status", one.stage);
    check(wanted[0] == POISON && wanted[2] == POISON, "what stands beside the cars wanted", one.stage);
    check(is_check(&one, kept.limit, kept.stage), "check after its status", kept.stage);
}

/* Every stage with cars beside the limit plus 1 dB and at the ends. */
static void check_stages(uint16_t limit) {
    const unsigned long cars[] = {0, limit, limit + 1ul, limit + 2ul, UINT16_MAX};
    check_start(limit);
    for (uint16_t stage = 0; stage < STAGES; stage++) {
        struct ruthimpo_production one = {limit, stage};
        check_status(one, &stages[stage], RUTHIMPO_ACCEPTED);
        for (size_t n = 0; n < sizeof cars / sizeof *cars; n++) {
            if (cars[n] <= UINT16_MAX) {
                check_offer(one, &stages[stage], (uint16_t)cars[n]);
            }
        }
    }
}

/* Every number that is no stage, up to the first that differs. */
static void check_no_stages(void) {
    unsigned before = differing;
    for (unsigned long stage = STAGES; stage <= UINT16_MAX && differing == before; stage++) {
        struct ruthimpo_production one = {72, (uint16_t)stage};
        struct stage said = {POISON, POISON, RUTHIMPO_NO_SUCH_STAGE, 0, one.stage, one.stage};
        check_status(one, &said, RUTHIMPO_NO_SUCH_STAGE);
        check_offer(one, &said, 73);
        check_offer(one, &said, 74);
    }
}

/* The cars of a check, with what is answered to the last one, and the status and the cars wanted after it. */
static const struct {
    uint16_t limit;
    size_t count;
    uint16_t cars[4];
    enum ruthimpo_refusal refusal;
    size_t place;
    uint8_t status, wanted;
} lists[] = {
    {72, 1, {73}, RUTHIMPO_ACCEPTED, 0, RUTHIMPO_CONFORMS, 0},
    {72, 2, {73, 73}, RUTHIMPO_CAR_AFTER_VERDICT, 1, RUTHIMPO_CONFORMS, 0},
    {72, 3, {73, 74, 74}, RUTHIMPO_CAR_AFTER_VERDICT, 1, RUTHIMPO_CONFORMS, 0},
    {72, 1, {74}, RUTHIMPO_ACCEPTED, 0, RUTHIMPO_OPEN, 2},
    {72, 2, {74, 80}, RUTHIMPO_ACCEPTED, 0, RUTHIMPO_OPEN, 1},
    {72, 2, {74, 73}, RUTHIMPO_ACCEPTED, 0, RUTHIMPO_OPEN, 1},
    {72, 3, {74, 80, 70}, RUTHIMPO_ACCEPTED, 0, RUTHIMPO_DOES_NOT_CONFORM, 0},
    {72, 3, {74, 73, 74}, RUTHIMPO_ACCEPTED, 0, RUTHIMPO_DOES_NOT_CONFORM, 0},
    {72, 4, {74, 80, 70, 71}, RUTHIMPO_CAR_AFTER_VERDICT, 3, RUTHIMPO_DOES_NOT_CONFORM, 0},
    {72, 3, {74, 73, 73}, RUTHIMPO_ACCEPTED, 0, RUTHIMPO_CONFORMS, 0},
    {72, 4, {74, 73, 73, 80}, RUTHIMPO_CAR_AFTER_VERDICT, 3, RUTHIMPO_CONFORMS, 0},
    {65535, 1, {65535}, RUTHIMPO_ACCEPTED, 0, RUTHIMPO_CONFORMS, 0},
    {65534, 1, {65535}, RUTHIMPO_ACCEPTED, 0, RUTHIMPO_CONFORMS, 0},
    {65533, 1, {65535}, RUTHIMPO_ACCEPTED, 0, RUTHIMPO_OPEN, 2},
    {0, 1, {1}, RUTHIMPO_ACCEPTED, 0, RUTHIMPO_CONFORMS, 0},
    {0, 1, {2}, RUTHIMPO_ACCEPTED, 0, RUTHIMPO_OPEN, 2},
};

static void check_lists(void) {
    for (size_t n = 0; n < sizeof lists / sizeof *lists; n++) {
        struct ruthimpo_production one;
        uint32_t refusal = POISON;
        size_t place = POISON;
        uint8_t status = POISON, wanted = POISON;
        ruthimpo_production_start(lists[n].limit, &one);
        for (size_t at = 0; at < lists[n].count; at++) {
            refusal = ruthimpo_production_offer(&one, lists[n].cars[at], &place);
        }
        check(refusal == lists[n].refusal && place == lists[n].place, "answer to the last car of list", n);
        check(ruthimpo_production_status(&one, &status, &wanted) == RUTHIMPO_ACCEPTED, "answer on the status of list", n);
        check(status == lists[n].status && wanted == lists[n].wanted, "status and cars wanted of list", n);
    }
}

static void check_production(void) {
    static const uint16_t limits[] = {0, 1, 72, 254, 255, 256, 32766, 32767, 32768, 65533, 65534, 65535};
    for (size_t n = 0; n < sizeof limits / sizeof *limits; n++) {
        check_stages(limits[n]);
    }
    check_no_stages();
    check_lists();
}

/* A lorry by its numbers, of which two axles have the first four, with its masses unless it is refused. */
struct lorry {
    uint16_t power, front, rear, rear_max, own;
    enum ruthimpo_refusal refusal;
    uint64_t mass, load, lowest, highest;
};

static const struct lorry two_axles[] = {
    /* 50 kg per kW; limited by the rear axle, with a maximum of each remainder modulo 4; no load */
    {2000, 4000, 3000, 11500, 0, RUTHIMPO_ACCEPTED, 100000000, 29250000, 95000000, 105000000},
    {3000, 4000, 3000, 11500, 0, RUTHIMPO_ACCEPTED, 127000000, 56250000, 120650000, 133350000},
    {3000, 4000, 3000, 11501, 0, RUTHIMPO_ACCEPTED, 127007500, 56257500, 120657125, 133357875},
    {3000, 4000, 3000, 11502, 0, RUTHIMPO_ACCEPTED, 127015000, 56265000, 120664250, 133365750},
    {3000, 4000, 3000, 11503, 0, RUTHIMPO_ACCEPTED, 127022500, 56272500, 120671375, 133373625},
    {1000, 4000, 3000, 11500, 0, RUTHIMPO_ACCEPTED, 70750000, 0, 67212500, 74287500},
    /* 7,075 kg by 50 kg per kW: the extra is -1, 0 and 1 kg */
    {1415, 4001, 3000, 11500, 0, RUTHIMPO_ACCEPTED, 70760000, 0, 67222000, 74298000},
    {1415, 4000, 3001, 11500, 0, RUTHIMPO_ACCEPTED, 70760000, 0, 67222000, 74298000},
    {1415, 4000, 3000, 11500, 0, RUTHIMPO_ACCEPTED, 70750000, 0, 67212500, 74287500},
    {1415, 4000, 2999, 11500, 0, RUTHIMPO_ACCEPTED, 70750000, 10000, 67212500, 74287500},
    {1415, 3999, 3000, 11500, 0, RUTHIMPO_ACCEPTED, 70750000, 10000, 67212500, 74287500},
    /* 12,700 kg by 50 kg per kW: the extra and the rear axle are at 75% of its maximum, and as near to it as a quarter of a kg */
    {2540, 4001, 3000, 11500, 0, RUTHIMPO_ACCEPTED, 127000000, 56240000, 120650000, 133350000},
    {2540, 4000, 3000, 11500, 0, RUTHIMPO_ACCEPTED, 127000000, 56250000, 120650000, 133350000},
    {2540, 3999, 3000, 11500, 0, RUTHIMPO_ACCEPTED, 126990000, 56250000, 120640500, 133339500},
    {2540, 4000, 3000, 11501, 0, RUTHIMPO_ACCEPTED, 127000000, 56250000, 120650000, 133350000},
    {2540, 3999, 3000, 11501, 0, RUTHIMPO_ACCEPTED, 126997500, 56257500, 120647625, 133347375},
    {2540, 3999, 3000, 11502, 0, RUTHIMPO_ACCEPTED, 127000000, 56260000, 120650000, 133350000},
    {2540, 3998, 3000, 11502, 0, RUTHIMPO_ACCEPTED, 126995000, 56265000, 120645250, 133344750},
    {2540, 3998, 3000, 11503, 0, RUTHIMPO_ACCEPTED, 127000000, 56270000, 120650000, 133350000},
    {2540, 3997, 3000, 11503, 0, RUTHIMPO_ACCEPTED, 126992500, 56272500, 120642875, 133342125},
    /* the unladen rear axle beside 75% of its maximum, with an extra and without */
    {3000, 4000, 8625, 11500, 0, RUTHIMPO_ACCEPTED, 127000000, 0, 120650000, 133350000},
    {0, 4000, 8625, 11500, 0, RUTHIMPO_ACCEPTED, 127000000, 0, 120650000, 133350000},
    {3000, 4000, 8626, 11500, 0, RUTHIMPO_REAR_OVERLOADED, 0, 0, 0, 0},
    {0, 4000, 8626, 11500, 0, RUTHIMPO_REAR_OVERLOADED, 0, 0, 0, 0},
    {3000, 4000, 8625, 11501, 0, RUTHIMPO_ACCEPTED, 127007500, 7500, 120657125, 133357875},
    {3000, 4000, 8626, 11501, 0, RUTHIMPO_REAR_OVERLOADED, 0, 0, 0, 0},
    {3000, 4000, 8626, 11502, 0, RUTHIMPO_ACCEPTED, 127015000, 5000, 120664250, 133365750},
    {3000, 4000, 8627, 11502, 0, RUTHIMPO_REAR_OVERLOADED, 0, 0, 0, 0},
    {3000, 4000, 8627, 11503, 0, RUTHIMPO_ACCEPTED, 127022500, 2500, 120671375, 133373625},
    {3000, 4000, 8628, 11503, 0, RUTHIMPO_REAR_OVERLOADED, 0, 0, 0, 0},
    /* the ends of 16 bits, and sums beyond them */
    {0, 0, 0, 0, 0, RUTHIMPO_ACCEPTED, 750000, 0, 712500, 787500},
    {15, 0, 0, 0, 0, RUTHIMPO_ACCEPTED, 750000, 0, 712500, 787500},
    {16, 0, 0, 0, 0, RUTHIMPO_ACCEPTED, 750000, 0, 712500, 787500},
    {16, 0, 0, 65535, 0, RUTHIMPO_ACCEPTED, 800000, 50000, 760000, 840000},
    {0, 0, 0, 65535, 0, RUTHIMPO_ACCEPTED, 750000, 0, 712500, 787500},
    {65535, 0, 0, 65535, 0, RUTHIMPO_ACCEPTED, 492262500, 491512500, 467649375, 516875625},
    {65535, 65535, 0, 0, 0, RUTHIMPO_ACCEPTED, 656100000, 0, 623295000, 688905000},
    {65535, 0, 0, 1, 0, RUTHIMPO_ACCEPTED, 757500, 7500, 719625, 795375},
    {65535, 0, 1, 1, 0, RUTHIMPO_REAR_OVERLOADED, 0, 0, 0, 0},
    {65535, 0, 1, 2, 0, RUTHIMPO_ACCEPTED, 765000, 5000, 726750, 803250},
    {0, 0, 1, 0, 0, RUTHIMPO_REAR_OVERLOADED, 0, 0, 0, 0},
    {65535, 65535, 49151, 65535, 0, RUTHIMPO_ACCEPTED, 1147612500, 2500, 1090231875, 1204993125},
    {0, 65535, 49151, 65535, 0, RUTHIMPO_ACCEPTED, 1147610000, 0, 1090229500, 1204990500},
    {22952, 65535, 0, 65535, 0, RUTHIMPO_ACCEPTED, 1147600000, 491500000, 1090220000, 1204980000},
    {65535, 65535, 49152, 65535, 0, RUTHIMPO_REAR_OVERLOADED, 0, 0, 0, 0},
    {65535, 65535, 65535, 65535, 0, RUTHIMPO_REAR_OVERLOADED, 0, 0, 0, 0},
    {0, 0, 65535, 0, 0, RUTHIMPO_REAR_OVERLOADED, 0, 0, 0, 0},
    {13108, 40000, 20000, 60000, 0, RUTHIMPO_ACCEPTED, 655400000, 54650000, 622630000, 688170000},
    {0, 40000, 30000, 40000, 0, RUTHIMPO_ACCEPTED, 700750000, 0, 665712500, 735787500},
};

static const struct lorry more_axles[] = {
    /* a stand-in limited by its rear axle, one at 50 kg per kW, one without a load: the extra is 1, 0 and -1 kg */
    {3000, 4000, 3000, 11500, 9000, RUTHIMPO_ACCEPTED, 127000000, 36250000, 120650000, 133350000},
    {3000, 4000, 3000, 11500, 12624, RUTHIMPO_ACCEPTED, 127000000, 10000, 120650000, 133350000},
    {3000, 4000, 3000, 11500, 12625, RUTHIMPO_ACCEPTED, 127000000, 0, 120650000, 133350000},
    {3000, 4000, 3000, 11500, 12626, RUTHIMPO_ACCEPTED, 127010000, 0, 120659500, 133360500},
    {2000, 4000, 3000, 11500, 6000, RUTHIMPO_ACCEPTED, 100000000, 39250000, 95000000, 105000000},
    {2000, 4000, 3000, 11500, 9924, RUTHIMPO_ACCEPTED, 100000000, 10000, 95000000, 105000000},
    {2000, 4000, 3000, 11500, 9925, RUTHIMPO_ACCEPTED, 100000000, 0, 95000000, 105000000},
    {2000, 4000, 3000, 11500, 9926, RUTHIMPO_ACCEPTED, 100010000, 0, 95009500, 105010500},
    {1000, 4000, 3000, 11500, 6999, RUTHIMPO_ACCEPTED, 70750000, 10000, 67212500, 74287500},
    {1000, 4000, 3000, 11500, 7000, RUTHIMPO_ACCEPTED, 70750000, 0, 67212500, 74287500},
    {1000, 4000, 3000, 11500, 7001, RUTHIMPO_ACCEPTED, 70760000, 0, 67222000, 74298000},
    {1000, 4000, 3000, 11500, 9000, RUTHIMPO_ACCEPTED, 90750000, 0, 86212500, 95287500},
    /* a stand-in's mass in quarters of a kg: the extra is beside 0 */
    {3000, 4000, 3000, 11501, 12625, RUTHIMPO_ACCEPTED, 127007500, 7500, 120657125, 133357875},
    {3000, 4000, 3000, 11501, 12626, RUTHIMPO_ACCEPTED, 127010000, 0, 120659500, 133360500},
    {3000, 4000, 3000, 11502, 12626, RUTHIMPO_ACCEPTED, 127015000, 5000, 120664250, 133365750},
    {3000, 4000, 3000, 11502, 12627, RUTHIMPO_ACCEPTED, 127020000, 0, 120669000, 133371000},
    {3000, 4000, 3000, 11503, 12627, RUTHIMPO_ACCEPTED, 127022500, 2500, 120671375, 133373625},
    {3000, 4000, 3000, 11503, 12628, RUTHIMPO_ACCEPTED, 127030000, 0, 120678500, 133381500},
    /* the stand-in is refused, whatever the lorry itself has */
    {3000, 4000, 8626, 11500, 9000, RUTHIMPO_REAR_OVERLOADED, 0, 0, 0, 0},
    {0, 4000, 8626, 11500, 0, RUTHIMPO_REAR_OVERLOADED, 0, 0, 0, 0},
    {0, 4000, 8626, 11500, 65535, RUTHIMPO_REAR_OVERLOADED, 0, 0, 0, 0},
    {65535, 65535, 65535, 65535, 65535, RUTHIMPO_REAR_OVERLOADED, 0, 0, 0, 0},
    /* the ends of 16 bits */
    {0, 0, 0, 0, 0, RUTHIMPO_ACCEPTED, 750000, 0, 712500, 787500},
    {0, 0, 0, 0, 65535, RUTHIMPO_ACCEPTED, 656100000, 0, 623295000, 688905000},
    {65535, 65535, 49151, 65535, 0, RUTHIMPO_ACCEPTED, 1147612500, 1146862500, 1090231875, 1204993125},
    {65535, 65535, 49151, 65535, 65535, RUTHIMPO_ACCEPTED, 1147612500, 491512500, 1090231875, 1204993125},
};

typedef uint32_t call_on_lorry(const struct lorry *one, uint64_t *masses, size_t *place);

static uint32_t call_two_axles(const struct lorry *one, uint64_t *masses, size_t *place) {
    return ruthimpo_lorry_two_axles(one->power, one->front, one->rear, one->rear_max, masses, place);
}

static uint32_t call_more_axles(const struct lorry *one, uint64_t *masses, size_t *place) {
    return ruthimpo_lorry_more_axles(one->power, one->front, one->rear, one->rear_max, one->own, masses, place);
}

static int are_masses_of(const struct lorry *one, const uint64_t *masses) {
    return masses[RUTHIMPO_TEST_MASS] == one->mass && masses[RUTHIMPO_LOAD] == one->load &&
           masses[RUTHIMPO_LOWEST_MASS] == one->lowest && masses[RUTHIMPO_HIGHEST_MASS] == one->highest;
}

/* A call whose masses and place stand between poisoned ones. A refusal keeps all four masses. */
static void check_lorry(const struct lorry *one, call_on_lorry *call, const char *words, size_t at) {
    uint64_t masses[6];
    size_t places[3];
    memset(masses, POISON, sizeof masses);
    memset(places, POISON, sizeof places);
    uint32_t refusal = call(one, &masses[1], &places[1]);
    int is_accepted = one->refusal == RUTHIMPO_ACCEPTED;
    check(refusal == one->refusal && places[1] == 0, words, at);
    check(is_accepted ? are_masses_of(one, &masses[1]) : is_poison(&masses[1], 4 * sizeof *masses), "masses of a lorry", at);
    check(is_poison(&masses[0], sizeof *masses) && is_poison(&masses[5], sizeof *masses), "what stands beside the masses", at);
    check(is_poison(&places[0], sizeof *places) && is_poison(&places[2], sizeof *places), "what stands beside a lorry's place", at);
}

static void check_lorries(void) {
    for (size_t n = 0; n < sizeof two_axles / sizeof *two_axles; n++) {
        check_lorry(&two_axles[n], call_two_axles, "refusal and place of two axles", n);
    }
    for (size_t n = 0; n < sizeof more_axles / sizeof *more_axles; n++) {
        check_lorry(&more_axles[n], call_more_axles, "refusal and place of more axles", n);
    }
}

/* What a thread calls for: so many bytes of the shared sheet, and the line that they have. */
struct task {
    size_t bytes, length;
    const uint8_t *line;
};

/* Whether a check of its own conforms after three cars. */
static int conforms_after_three(void) {
    static const uint16_t cars[] = {74, 73, 73};
    struct ruthimpo_production one;
    uint8_t status = POISON, wanted = POISON;
    size_t place;
    ruthimpo_production_start(72, &one);
    for (size_t n = 0; n < sizeof cars / sizeof *cars; n++) {
        if (ruthimpo_production_offer(&one, cars[n], &place) != RUTHIMPO_ACCEPTED) {
            return 0;
        }
    }
    ruthimpo_production_status(&one, &status, &wanted);
    return status == RUTHIMPO_CONFORMS && wanted == 0;
}

/* Whether a lorry has its masses in places of the thread's own. */
static int has_its_masses(const struct lorry *one, call_on_lorry *call) {
    uint64_t masses[4];
    size_t place;
    return call(one, masses, &place) == RUTHIMPO_ACCEPTED && are_masses_of(one, masses);
}

/* Answers NULL if a call gives another line, another mean of a motorcycle, another status of a production check or other masses of
 * a lorry. */
static void *calls_of_a_thread(void *argument) {
    static const uint32_t levels[4] = {0x42A00000, 0x42A20000, 0x42A00000, 0x42A00000}; /* 80.0, and 81.0 once */
    const struct task *task = argument;
    for (int call = 0; call < CALLS; call++) {
        uint8_t out[RUTHIMPO_LINE_BYTES], pass = POISON;
        uint16_t mean = POISON;
        size_t place, length = ruthimpo_line(worked, task->bytes, out, sizeof out);
        if (length != task->length || memcmp(out, task->line, length) != 0) {
            return NULL;
        }
        if (ruthimpo_motorcycle(levels, 80, &mean, &pass, &place) != 0 || mean != 317 || pass != 1) {
            return NULL;
        }
        if (!conforms_after_three()) {
            return NULL;
        }
        if (!has_its_masses(&two_axles[0], call_two_axles) || !has_its_masses(&more_axles[0], call_more_axles)) {
            return NULL;
        }
    }
    return argument;
}

/* Threads with little stack, and unlike tasks in turn. */
static void check_threads(void) {
    struct task tasks[] = {{worked_bytes, line_bytes, line}, {0, 12, (const uint8_t *)"REFUSED 2 0\n"}};
    pthread_t threads[THREADS];
    pthread_attr_t small;
    pthread_attr_init(&small);
    check(pthread_attr_setstacksize(&small, 16384) == 0, "a stack of 16 KB", 0);
    for (size_t n = 0; n < THREADS; n++) {
        check(pthread_create(&threads[n], &small, calls_of_a_thread, &tasks[n % 2]) == 0, "start of thread", n);
    }
    for (size_t n = 0; n < THREADS; n++) {
        void *task = NULL;
        check(pthread_join(threads[n], &task) == 0 && task != NULL, "calls of thread", n);
    }
}

static size_t read_file(const char *name, uint8_t *bytes, size_t room) {
    FILE *file = fopen(name, "rb");
    if (file == NULL) {
        return 0;
    }
    size_t count = fread(bytes, 1, room, file);
    fclose(file);
    return count;
}

int main(int count, char **names) {
    if (count != 3) {
        fprintf(stderr, "usage: check SHEET LINE\n");
        return 2;
    }
    worked_bytes = read_file(names[1], worked, sizeof worked);
    line_bytes = read_file(names[2], line, sizeof line);
    check(worked_bytes == 32 * 22, "bytes of the worked sheet", worked_bytes);
    check_refusals();
    check_shortages();
    check_backgrounds();
    check_without_limit();
    check_worked_by_class();
    check_classes();
    check_null();
    check_line_buffers();
    check_alignments();
    check_motorcycles();
    check_production();
    check_lorries();
    check_threads();
    printf("%u of %u checks of ruthimpo.h hold\n", checks - differing, checks);
    return differing == 0 ? 0 : 1;
}
