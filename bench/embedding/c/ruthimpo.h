/* The proved evaluation of pass-by sheets, verdict on motorcycles, production checks and test masses of lorries, for programs in C
 * on x86-64 Linux.
 *
 * `rt lib`, in crates/embed, writes crates/embed/out/libembed.a. A program links it, and needs nothing else for it:
 *
 *     cc -Ibench/embedding/c program.c crates/embed/out/libembed.a
 *
 * The archive calls memcpy and memset and no other function, and it can be linked into a shared library too.
 *
 * Threads: the library has no state. It keeps nothing between calls and takes no memory but the stack, for which a thread
 * with 16 KB has room. Any number of threads may call it at once, each with buffers, production checks and masses of its own;
 * they may share a sheet.
 *
 * Pointers: bytes may lie at any address, and a pointer to them may be NULL if the length with it is 0. A pointer without a
 * length, such as `place`, may not be NULL and is aligned as any other of its type. The caller sees to it that the bytes
 * behind each pointer are as many as it says and do not overlap, and that nobody else writes them during the call.
 *
 * Places: records count from 0, and the bytes of a record are those from 32 * place on. The place of a gear is its number,
 * that of a motorcycle's level its number, 1 to 4, and that of its left side 1, of its right side 2. The place of a car after
 * the verdict is the number of cars counted, 1 or 3. If a refusal names none of these, its place is 0.
 */
#ifndef RUTHIMPO_H
#define RUTHIMPO_H

#include <stddef.h>
#include <stdint.h>

#ifdef __cplusplus
extern "C" {
#endif

/* The size of a result record, and the room that ruthimpo_line asks for, more than any line takes. */
#define RUTHIMPO_RESULT_BYTES 32
#define RUTHIMPO_LINE_BYTES 276

/* Acceptance, or the number of a refusal. ruthimpo_evaluate answers 0 to 12, 14 or 15 (document 01, "Refusals and what remains";
 * document 02, wishes 1 and 5), ruthimpo_motorcycle 0, 22 or 23 (document 02, wish 14), ruthimpo_production_offer 0, 20 (document
 * 02, wish 11) or 255, ruthimpo_production_status 0 or 255, ruthimpo_lorry_two_axles and ruthimpo_lorry_more_axles 0 or 21
 * (document 02, wish 13); 255 is no number of the documents. A run is valid by document 01, "From levels to windows", step 3. */
enum ruthimpo_refusal {
    RUTHIMPO_ACCEPTED = 0,
    RUTHIMPO_SHORT_BUFFER = 1,             /* the result buffer has under 32 bytes */
    RUTHIMPO_WRONG_SIZE = 2,               /* the sheet has no byte, more than 32,768, or a record cut short */
    RUTHIMPO_NO_VEHICLE = 3,               /* the first record is no vehicle record */
    RUTHIMPO_NO_CLOSING = 4,               /* the last record, its place, does not close the sheet or counts another number of
                                              runs */
    RUTHIMPO_BROKEN_RECORD = 5,            /* the place is the lowest record that breaks the layout */
    RUTHIMPO_PMR_OUT_OF_RANGE = 6,         /* PMR is under 5.0 or over 600.0 */
    RUTHIMPO_TOO_FEW = 7,                  /* the place is the lowest gear with an acceleration run and no window, which has fewer
                                              than four valid acceleration runs; 0 if there is no acceleration run */
    RUTHIMPO_NOT_FALLING = 8,              /* the place is the lower gear of the first neighbours whose accelerations do not fall */
    RUTHIMPO_NO_RULE = 9,                  /* every gear is dropped, or none of the rules chooses one */
    RUTHIMPO_CONSTANT_SPEED_TOO_FEW = 10,  /* the place is the lowest chosen gear without a constant-speed window, which has fewer
                                              than four valid constant-speed runs */
    RUTHIMPO_NO_LIMIT_FOR_N1 = 11,         /* the limit is 0, to be looked up, and the category is N1 */
    RUTHIMPO_NO_LIMIT_ENTRY = 12,          /* the limit is 0, and the phase is not from 1 to 3 or the byte of low cars is above 1 */
    RUTHIMPO_TOO_WIDE = 14,                /* as 7, but this gear has four or more valid acceleration runs, of which no four
                                              neighbours are within 2.0 dB on both sides */
    RUTHIMPO_CONSTANT_SPEED_TOO_WIDE = 15, /* as 10, but this gear has four or more valid constant-speed runs, of which no four
                                              neighbours are within 2.0 dB on both sides */
    RUTHIMPO_CAR_AFTER_VERDICT = 20,       /* the place is the number of cars counted */
    RUTHIMPO_REAR_OVERLOADED = 21,         /* the unladen load of the rear axle is over 75% of that axle's maximum */
    RUTHIMPO_LEVEL_OUT_OF_RANGE = 22,      /* the place is the number of the first level that is not finite or not from 20.0 to
                                              140.0 */
    RUTHIMPO_SIDE_FAR_APART = 23,          /* the place is the first side whose two levels, in whole dB, differ by more than 2 */
    RUTHIMPO_NO_SUCH_STAGE = 255           /* the stage of a production check is above 6 */
};

/* Places of the result record (document 01, "L_urban"). From W on they are 16-bit numbers, low byte first. */
enum ruthimpo_field {
    RUTHIMPO_RULE = 0,
    RUTHIMPO_I = 1,
    RUTHIMPO_J = 2,         /* 0 for one gear */
    RUTHIMPO_K = 3,         /* hundredths */
    RUTHIMPO_KP = 4,        /* hundredths */
    RUTHIMPO_PASS = 5,      /* 1 pass, 0 fail */
    RUTHIMPO_W = 6,         /* tenths of dB(A) */
    RUTHIMPO_C = 8,         /* tenths of dB(A) */
    RUTHIMPO_L_URBAN = 10,  /* whole dB(A) */
    RUTHIMPO_A_URBAN = 12,  /* hundredths of m/s2 */
    RUTHIMPO_A_REF = 14,    /* hundredths of m/s2 */
    RUTHIMPO_PMR = 16,      /* tenths */
    RUTHIMPO_A = 18         /* a', hundredths of m/s2 */
};

/* Evaluates a sheet. It is laid out as in document 01, "The sheet", with a background for each side (document 02, wish 8):
 * the numbers at 12 and 18 of the vehicle record are the left and the right background before, those at 4 and 6 of the
 * closing record the left and the right one after, in tenths of dB(A), 0 to 1,000; 0 on the right stands for the left of
 * the same record.
 *
 * The limit, at 14 of the vehicle record, is 50 to 100, and then bytes 16 and 17 are zero; or it is 0 and is looked up for an M1
 * (document 02, wish 1). Byte 16 is then the phase, 1 to 3, and byte 17 is 1 for the class of low cars with at most four seats,
 * else 0. The limits in dB(A), by the PMR rounded to a tenth:
 *
 *     PMR                        phase 1  phase 2  phase 3
 *     up to 120.0                   72       70       68
 *     up to 160.0                   73       71       69
 *     above 160.0                   75       73       71
 *     above 200.0, byte 17 is 1     75       74       72
 *
 * Answers 0 and puts the result record into the first 32 bytes of `result`; the bytes after them keep what they held.
 * Or answers the number of the refusal, the first cause in the order 1 to 5, 11, 12, 6 to 10, and leaves all of `result` as it
 * was; the place of the refusal goes to `place`. 14 stands where 7 does in this order, and 15 where 10 does: the lowest gear
 * without a window is named, and its own shortage gives the number. On success `place` is 0. */
uint32_t ruthimpo_evaluate(const uint8_t *sheet, size_t sheet_bytes, uint8_t *result, size_t result_bytes,
                           size_t *place);

/* Puts the line of the evaluation program into `out`, with its line feed and no zero after it, and answers its length;
 * the bytes after the line keep what they held. If `out` has under 276 bytes, answers 0 and leaves all of `out` as it was. */
size_t ruthimpo_line(const uint8_t *sheet, size_t sheet_bytes, uint8_t *out, size_t out_bytes);

/* Judges the four levels of a motorcycle against a limit in whole dB.
 *
 * `levels` has the bit patterns of four 32-bit floats, 1 and 2 of the left side, 3 and 4 of the right. Any pattern may stand
 * there, and `limit` may be any number. A program with floats copies them:
 *
 *     float measured[4] = {80.0f, 81.0f, 80.0f, 80.0f};
 *     uint32_t levels[4];
 *     memcpy(levels, measured, sizeof levels);
 *
 * Answers 0 and puts the mean in quarters of a dB, 76 to 556, into `mean`, and 1 into `pass` if it is not above the limit,
 * else 0. Or answers the number of the refusal, 22 or 23, and leaves `mean` and `pass` as they were; the place of the refusal
 * goes to `place`. On success `place` is 0. */
uint32_t ruthimpo_motorcycle(const uint32_t levels[4], uint16_t limit, uint16_t *mean, uint8_t *pass, size_t *place);

/* A production check as a program keeps it between cars: the limit in whole dB, without the 1 dB that the requirement adds, and
 * the stage that it has reached.
 *
 * A car meets the requirement if its L_urban is at most the limit plus 1 dB; nothing wraps, and every car meets it with a limit
 * of 65,534 or 65,535. The stages:
 *
 *     stage  wanted
 *       0      1    no car yet
 *       1      0    the first car meets the requirement: the type conforms
 *       2      2    the first car fails it
 *       3      1    the first fails it, the second meets it
 *       4      1    the first and the second fail it
 *       5      0    the first fails it, the second and the third meet it: the type conforms
 *       6      0    the first fails it, and so does the second, the third or both: the type does not conform
 *
 * A program may copy a check, or store both numbers and go on from them later. Any limit with a stage from 0 to 6 is taken for a
 * check, so a check is always started; the library cannot tell whether the limit is still that of the start. */
struct ruthimpo_production {
    uint16_t limit;
    uint16_t stage;
};

enum ruthimpo_status {
    RUTHIMPO_OPEN = 0,
    RUTHIMPO_CONFORMS = 1,
    RUTHIMPO_DOES_NOT_CONFORM = 2
};

/* Starts a production check against a limit, any number: writes the limit and stage 0. */
void ruthimpo_production_start(uint16_t limit, struct ruthimpo_production *check);

/* Offers the next car by its L_urban in whole dB, any number.
 *
 * Answers 0 and puts the stage that the car leads to into `check`, where the limit stays; `place` is 0. Or answers the number of
 * the refusal and leaves all of `check` as it was: 20 if the verdict is given already, with the number of cars counted, 1 or 3,
 * in `place`; 255 if the stage is above 6, with 0 in `place`. */
uint32_t ruthimpo_production_offer(struct ruthimpo_production *check, uint16_t l_urban, size_t *place);

/* Answers 0 and puts one of ruthimpo_status into `status`, and the number of cars still wanted, 0 to 2, into `wanted`. Or, if the
 * stage is above 6, answers 255 and leaves `status` and `wanted` as they were. */
uint32_t ruthimpo_production_status(const struct ruthimpo_production *check, uint8_t *status, uint8_t *wanted);

/* Places of what the functions for lorries give, each exact, in ten-thousandths of a kg. */
enum ruthimpo_mass {
    RUTHIMPO_TEST_MASS = 0,
    RUTHIMPO_LOAD = 1,         /* the test mass less the driver, 75 kg, and the unladen mass */
    RUTHIMPO_LOWEST_MASS = 2,  /* 95% of the test mass */
    RUTHIMPO_HIGHEST_MASS = 3  /* 105% of the test mass */
};

/* Gives the test mass of a lorry (N2, N3) of two axles: 50 kg per kW, but at least the unladen mass and the driver, and at most
 * the sum of `front`, 75% of `rear_max` and the driver.
 *
 * `power` is in tenths of kW. `front` and `rear` are the unladen loads of the axles, and `rear_max` is the rear axle's maximum, in
 * whole kg. Each may be any number.
 *
 * Answers 0 and puts the test mass, the load and both ends of the band into `masses`, at the places of ruthimpo_mass. Or, if `rear`
 * is over 75% of `rear_max`, answers 21 and leaves all of `masses` as it was. `place` is 0 either way. */
uint32_t ruthimpo_lorry_two_axles(uint16_t power, uint16_t front, uint16_t rear, uint16_t rear_max, uint64_t masses[4],
                                  size_t *place);

/* Gives the test mass of a lorry (N2, N3) of more axles: that of its two-axle stand-in, but at least its own unladen mass and the
 * driver.
 *
 * The first four numbers are the stand-in's, as ruthimpo_lorry_two_axles takes them. `own` is the unladen mass of the lorry itself
 * in whole kg, any number; the load is the test mass less the driver and `own`.
 *
 * Answers and writes as ruthimpo_lorry_two_axles does, 21 if that function answers 21 on the stand-in. */
uint32_t ruthimpo_lorry_more_axles(uint16_t power, uint16_t front, uint16_t rear, uint16_t rear_max, uint16_t own,
                                   uint64_t masses[4], size_t *place);

#ifdef __cplusplus
}
#endif

#endif
