/*
 * hatmuyon: grades the tally sheet of an on-line inspection, and the mold sheet of a tomato line,
 * under the USDA cumulative sum plan, File Code 120 A-6 of August 1978; and a recorded tally sheet
 * again, under a second plan. In finished results it looks up what became of a code. A warehouse lot
 * it grades under the lot single sampling plan, from one sample.
 *
 * Link with libhatmuyon.a, which `./archive` writes to target/staticlib (x86-64).
 * The archive needs no other library. The header is C99 and C++11.
 */
#ifndef HATMUYON_H
#define HATMUYON_H

#include <stddef.h>
#include <stdint.h>

#ifdef __cplusplus
extern "C" {
#endif

/*
 * The version, the same as that of the Rust crate: raised with each change of a record or an answer,
 * and of the functions and types in C or Rust. A program, the header and the archive of one version
 * belong together. The archive does not carry its version, so that nothing notices another one.
 */
#define HATMUYON_VERSION "0.9.0"
#define HATMUYON_VERSION_MAJOR 0
#define HATMUYON_VERSION_MINOR 9
#define HATMUYON_VERSION_PATCH 0

/*
 * A tally sheet is a plan record and then, in any order, sample units, redesignations and breaks.
 * Every record opens with a mark of two bytes; numbers of two bytes have the high byte first.
 *
 *   plan           50 4C, designated grade (1), then for grades A, B, C, within each for the classes
 *                  critical, severe, major, total: S, T, L (2 each, tenths of a defect)
 *   sample unit    53 55, production code (2), counts of critical, severe, major, minor (2 each),
 *                  prerequisite grade (1), recoverable (1): 1 if the portion is separately coded and
 *                  within reach, else 0
 *   redesignation  52 44, new designated grade (1)
 *   break          42 4B
 *
 * S is the start of a CuSum, T the tolerance, L the acceptance limit.
 */

/* The marks, as numbers of two bytes. */
#define HATMUYON_PLAN_MARK 0x504C
#define HATMUYON_UNIT_MARK 0x5355
#define HATMUYON_REDESIGNATION_MARK 0x5244
#define HATMUYON_BREAK_MARK 0x424B
#define HATMUYON_RESULT_MARK 0x4752

/* Sizes of the records in bytes. */
#define HATMUYON_PLAN_SIZE 75
#define HATMUYON_UNIT_SIZE 14
#define HATMUYON_REDESIGNATION_SIZE 3
#define HATMUYON_BREAK_SIZE 2
#define HATMUYON_RESULT_SIZE 32

/* The most units, and the largest count, S, T and L, of a tally sheet. A result buffer for any tally
 * sheet has HATMUYON_RESULT_SIZE * HATMUYON_MOST_UNITS bytes. */
#define HATMUYON_MOST_UNITS 1000
#define HATMUYON_LARGEST_COUNT 2000       /* of a lot, too */
#define HATMUYON_LARGEST_PLAN_NUMBER 9999 /* of S, T and L, in tenths */

/* Offsets of the fields of a result record, which opens with the mark 47 52. Numbers of four bytes
 * have the high byte first, as those of two. */
#define HATMUYON_RESULT_CODE 2                /* 2 bytes: production code */
#define HATMUYON_RESULT_PORTION_GRADE 4       /* 1 byte: grade of the portion */
#define HATMUYON_RESULT_CODE_GRADE 5          /* 1 byte: worst portion grade of the code on the sheet */
#define HATMUYON_RESULT_PLAN_GRADE 6          /* 1 byte: grade of the plan in force for the unit, 3 if none */
#define HATMUYON_RESULT_STANDING 7            /* 1 byte: a standing, see below */
#define HATMUYON_RESULT_CRITICAL 8            /* 2 bytes each: the CuSums in tenths, 0 if no plan is in force */
#define HATMUYON_RESULT_SEVERE 10
#define HATMUYON_RESULT_MAJOR 12
#define HATMUYON_RESULT_TOTAL 14
#define HATMUYON_RESULT_CRITICAL_OVERSHOOT 16 /* 4 bytes each: the overshoots in tenths, see below */
#define HATMUYON_RESULT_SEVERE_OVERSHOOT 20
#define HATMUYON_RESULT_MAJOR_OVERSHOOT 24
#define HATMUYON_RESULT_TOTAL_OVERSHOOT 28

/*
 * The overshoot of a class tells how far it is over its limit: the raw value less L, or 0 where the
 * class met. The raw value is the old CuSum + ten times the count - T; T and L are those of the plan
 * in force for the unit, and where there is none every overshoot is 0. A class failed exactly if its
 * overshoot is not 0. None is above 80,000, which is ten times four of the largest counts.
 */

/* Grades, best first. */
enum hatmuyon_grade_code {
    HATMUYON_GRADE_A = 0,
    HATMUYON_GRADE_B = 1,
    HATMUYON_GRADE_C = 2,
    HATMUYON_GRADE_SUBSTANDARD = 3
};

/* The standing of a unit; in a regrading the designated plan is that of the second plan. */
enum hatmuyon_standing {
    HATMUYON_MET = 0,           /* it met the designated plan */
    HATMUYON_FAILED = 1,        /* it failed the designated plan */
    HATMUYON_IN_STEP_THREE = 2, /* it is in step 3 and not recovered */
    HATMUYON_RECOVERED = 3      /* it is in step 3 and recovered */
};

/*
 * A recorded tally sheet may be graded again under a second plan, that of a new buyer: exactly one
 * plan record, mark and all, of HATMUYON_PLAN_SIZE bytes. The sheet's own plan is checked, and not
 * graded by. As in appendix 7 of the manual:
 *
 *   - Every unit of the sheet is graded in its order under the second plan's designated grade, also
 *     one that failed or fails, and has its result record at its place. Lower grades are the second
 *     plan's, too.
 *   - A break restarts: each class is at its S. A redesignation is passed over, and restarts nothing.
 *   - Two failures in a row mean nothing: there is no step 3, and recoverable is not looked at.
 *   - Prerequisites and codes count as before.
 *
 * The result records have the same fields. The plan grade is the second plan's designated grade
 * throughout, and the standing HATMUYON_MET or HATMUYON_FAILED.
 */

/*
 * What became of a code may be looked up in finished results, those of a grading or a regrading. The
 * answer is a part of them: the first record of the code whose portion grade is the worst that the
 * code has.
 *
 *   - The results are bytes of any origin, taken as result records one after the other.
 *   - Of a record the code and the portion grade are looked at; its mark, its code grade and all else
 *     are not. A portion grade of 3 or more is Substandard.
 *   - Reading ends at the first Substandard portion of the code; the answer is that of a full reading.
 *   - A code is not on this sheet exactly if no record has it.
 *
 * The result records of a mold sheet, below, have no code: do not look codes up in them.
 */

/*
 * A mold sheet is an opening and then sample units, with marks and numbers as on a tally sheet.
 *
 *   opening        4D 44, level row (1)
 *   sample unit    4D 55, production code (2), positive fields (1)
 *
 * Mold is judged by positive fields out of 25, as percent defective, not by defects. A defective
 * field is one however many defects it holds, so that a count of positive fields and a count of
 * defects, as on a tally sheet, must never be added or compared.
 *
 * The level row tells the defect action level, and with it S, T and L, in whole fields:
 *
 *   row                       0    1    2    3    4    5
 *   action level, percent     5   10   12   15   20   25
 *   S                         0    1    0    1    0    1
 *   T                         1    2    3    3    5    6
 *   L                         1    3    2    3    2    3
 *
 * The CuSum begins at S. The raw value of a unit is the old CuSum + its positive fields - T. If it is
 * above L, the unit fails and the CuSum becomes L; if it is below zero, the CuSum becomes 0; otherwise
 * it is the CuSum. All are kept in tenths: a field is ten. A unit meets or fails; there is no lower
 * grade and no step 3.
 */

#define HATMUYON_MOLD_SHEET_MARK 0x4D44
#define HATMUYON_MOLD_UNIT_MARK 0x4D55
#define HATMUYON_MOLD_RESULT_MARK 0x4D52

#define HATMUYON_MOLD_OPENING_SIZE 3
#define HATMUYON_MOLD_UNIT_SIZE 5
#define HATMUYON_MOLD_RESULT_SIZE 5

/* How many level rows there are, from 0 on, and how many fields are counted. A mold sheet has at
 * most HATMUYON_MOST_UNITS units, too: a result buffer for any has HATMUYON_MOLD_RESULT_SIZE *
 * HATMUYON_MOST_UNITS bytes. */
#define HATMUYON_MOLD_LEVELS 6
#define HATMUYON_MOST_POSITIVE_FIELDS 25

/* Offsets of the fields of a mold sheet's result record, which opens with the mark 4D 52. It has
 * neither the code nor an overshoot. */
#define HATMUYON_MOLD_RESULT_MET 2   /* 1 byte: 1 if the unit met, 0 if it failed */
#define HATMUYON_MOLD_RESULT_CUSUM 3 /* 2 bytes: the CuSum in tenths of a field */

/*
 * A warehouse lot is one record, with mark and numbers as on a tally sheet. It is graded by the lot
 * single sampling plan for a standard sample unit size of 6.
 *
 *   lot            4C 54, sample units (1), then for grades A, B, C, within each for the classes
 *                  critical, severe, major, total: the AQL (2 each, tenths); counts of critical,
 *                  severe, major, minor (2 each), prerequisite grade (1)
 *
 * Sample units and AQLs are those listed here, with the acceptance number of each pair:
 *
 *   sample units              6   13   21   29
 *   AQL  1.0                  1    2    3    4
 *   AQL  1.5                  1    3    4    5
 *   AQL  2.5                  3    4    6    8
 *   AQL  4.0                  4    6    9   11
 *   AQL  5.0                  4    7   11   14
 *   AQL 12.5                  8   15   22   29
 *
 * A grade admits a class whose count is not above the acceptance number of its AQL; the count of total
 * is the sum of all four. The defect grade is the best that admits all classes, and Substandard exactly
 * if none does. The lot grade is the worse of it and the prerequisite grade. There is no CuSum, no
 * tenths of a count and no result record.
 */

#define HATMUYON_LOT_MARK 0x4C54
#define HATMUYON_LOT_SIZE 36

/*
 * The number of an answer: 0, or the ground on which the sheet or the lot is refused. Of a sheet the
 * place is 0 for 1 to 5, 16 and 18, the offset of the record's mark for 6 to 12 and 17, and the sheet's
 * length for 13. Of a lot it is 0 for every ground. The first ground met is the answer.
 *
 * A tally sheet is refused by 1 to 13. The plan is checked first, for 1 to 5 in turn; then the
 * records from left to right, each wholly before the next, for 6, 7, 12, 8, 9, 10, 11 in this order;
 * then the result buffer, for 13.
 *
 * A regrading is refused by these and 18. The sheet is checked first in the same way, its own plan
 * and its records, for 1 to 12; then the second plan, for 18: its length is not HATMUYON_PLAN_SIZE,
 * its mark not that of a plan, or one of 2 to 5 applies to it; then the result buffer, for 13.
 *
 * A mold sheet is refused by 1, 6, 7, 12, 13, 16 and 17. The opening is checked first, for 1 and 16;
 * then the records in the same way, for 6, 7, 12, 17 in this order; then the result buffer, for 13.
 * The words below are those of a tally sheet; of a mold sheet these read otherwise:
 *
 *   1     shorter than 3 bytes, or first mark not 4D 44
 *   6     one byte left, or a mark not 4D 55
 *   13    result buffer shorter than 5 times the units
 *
 * A lot is refused by 6, 7, 20, 21, 22, 8 and 9, in this order, each looked for in the whole lot before
 * the next. Of a lot these read otherwise:
 *
 *   6     shorter than 2 bytes, or mark not 4C 54
 *   7     length not 36 bytes
 *   9     prerequisite above 3
 *
 * 15 is answered by the printing program alone, for an input above 65,536 bytes. 19 is answered by a
 * look-up, whose numbers are apart from these. 14 was a CuSum too large for two bytes, to which no
 * sheet leads; it is not used again.
 */
enum hatmuyon_number {
    HATMUYON_ACCEPTED = 0,
    HATMUYON_REFUSED_NO_PLAN = 1,                   /* shorter than 75 bytes, or first mark not 50 4C */
    HATMUYON_REFUSED_BAD_DESIGNATED_GRADE = 2,      /* designated grade above 2 */
    HATMUYON_REFUSED_PLAN_NUMBER_TOO_LARGE = 3,     /* an S, T or L above 9,999 */
    HATMUYON_REFUSED_START_ABOVE_LIMIT = 4,         /* an S above its L */
    HATMUYON_REFUSED_SMALLER_AT_LOWER_GRADE = 5,    /* in a class, T or T+L smaller at B than at A, or at C than at B */
    HATMUYON_REFUSED_UNKNOWN_MARK = 6,              /* one byte left, or a mark not of a unit, redesignation or break */
    HATMUYON_REFUSED_CUT_SHORT = 7,                 /* record cut short */
    HATMUYON_REFUSED_COUNT_TOO_LARGE = 8,           /* a count above 2,000 */
    HATMUYON_REFUSED_BAD_UNIT_FIELD = 9,            /* prerequisite above 3 or recoverable above 1 */
    HATMUYON_REFUSED_BAD_NEW_GRADE = 10,            /* new grade above 2 */
    HATMUYON_REFUSED_SAME_GRADE = 11,               /* new grade equals the one designated just before this record */
    HATMUYON_REFUSED_TOO_MANY_UNITS = 12,           /* a unit after the 1,000th */
    HATMUYON_REFUSED_RESULT_BUFFER_TOO_SHORT = 13,  /* result buffer shorter than 32 times the units */
    HATMUYON_REFUSED_BAD_LEVEL_ROW = 16,            /* level row above 5 */
    HATMUYON_REFUSED_TOO_MANY_POSITIVE_FIELDS = 17, /* positive fields above 25 */
    HATMUYON_REFUSED_BAD_SECOND_PLAN = 18,          /* second plan not exactly one plan record free of 2 to 5 */
    HATMUYON_REFUSED_BAD_SAMPLE_UNITS = 20,         /* sample units not 6, 13, 21 or 29 */
    HATMUYON_REFUSED_UNLISTED_AQL = 21,             /* an AQL not listed */
    HATMUYON_REFUSED_FALLING_AQL = 22               /* in a class, an AQL smaller at B than at A, or at C than at B */
};

/* What a grading or a regrading of a sheet answers. */
struct hatmuyon_answer {
    uint32_t number; /* an enum hatmuyon_number */
    size_t units;    /* accepted: the sample units, which is the number of result records; refused: 0 */
    size_t offset;   /* accepted: the sheet's length; refused: the place, see above */
};

/* What the grading of a lot answers. */
struct hatmuyon_lot_answer {
    uint32_t number; /* an enum hatmuyon_number */
    uint8_t grade;   /* accepted: the lot grade, an enum hatmuyon_grade_code; refused: 3, which is then no grade:
                      * look at the number first */
    size_t offset;   /* 0; refused: the place, see above */
};

/* The number of a look-up, apart from those above: 1 is no refusal here. 19 comes before reading. */
enum hatmuyon_lookup_number {
    HATMUYON_FOUND = 0,
    HATMUYON_NOT_ON_THIS_SHEET = 1,         /* no record has the code */
    HATMUYON_REFUSED_NOT_WHOLE_RECORDS = 19 /* results not a multiple of 32 bytes long */
};

/* What a look-up answers: a part of the results, which is empty unless the code is found. */
struct hatmuyon_part {
    uint32_t number; /* an enum hatmuyon_lookup_number */
    size_t offset;   /* found: where the record begins in the results; else 0 */
    size_t length;   /* found: HATMUYON_RESULT_SIZE; else 0 */
};

/*
 * Each function needs at most 2 KiB of stack, its return address among them. This is measured and
 * not proved: hatmuyon_grade and hatmuyon_regrade take some 900 bytes and hatmuyon_grade_lot some 300,
 * in frames of fixed size and without recursion, hatmuyon_find_code hardly any, and a test of
 * bindings/rust fails if one takes more than this of a painted stack.
 */
#define HATMUYON_STACK_SIZE 2048

/*
 * hatmuyon_grade grades a tally sheet, hatmuyon_grade_mold a mold sheet, and hatmuyon_regrade a
 * recorded tally sheet under the second plan `plan`, into a result buffer: one result record for each
 * sample unit, in their order. The size of a result record, below, is HATMUYON_RESULT_SIZE, and for a
 * mold sheet HATMUYON_MOLD_RESULT_SIZE.
 *
 * The caller owes:
 *   - `sheet` may be read for `sheet_length` bytes and `plan` for `plan_length` bytes, `results` may
 *     be read and written for `results_length` bytes;
 *   - no pointer is null, also where its length is 0;
 *   - the results overlap neither the sheet nor the plan; these two are only read, and may overlap
 *     each other;
 *   - during the call no other thread writes to the sheet or the plan, and none reads or writes the
 *     results.
 * Nothing is owed of the bytes: any sheet may be passed, any second plan, and any result buffer.
 *
 * Each of the three promises:
 *   - it accepts the sheet, or refuses it by one of the numbers for this function with the place, and
 *     refuses none to which no ground applies;
 *   - refused: every byte of `results` is kept;
 *   - accepted: the first size * units bytes of `results` are the result records, and every byte
 *     behind them is kept;
 *   - no byte of the sheet or the plan is changed, no other memory is touched but the stack, nothing
 *     is allocated, and nothing is kept from one call to the next;
 *   - it always returns.
 */
struct hatmuyon_answer hatmuyon_grade(const uint8_t *sheet, size_t sheet_length,
                                      uint8_t *results, size_t results_length);
struct hatmuyon_answer hatmuyon_grade_mold(const uint8_t *sheet, size_t sheet_length,
                                           uint8_t *results, size_t results_length);
struct hatmuyon_answer hatmuyon_regrade(const uint8_t *sheet, size_t sheet_length,
                                        const uint8_t *plan, size_t plan_length,
                                        uint8_t *results, size_t results_length);

/*
 * hatmuyon_find_code looks up what became of the code `code` in the finished results `results`.
 *
 * The caller owes:
 *   - `results` may be read for `results_length` bytes, and is not null, also where the length is 0;
 *   - during the call no other thread writes to the results.
 * Nothing is owed of the bytes. After a grading the results are HATMUYON_RESULT_SIZE * units bytes
 * long: what lies behind them in the result buffer would be taken for records, too.
 *
 * It promises:
 *   - results that are not a multiple of HATMUYON_RESULT_SIZE bytes long are refused, and no others;
 *   - a code that a record has is found, and the part is the first record of the code whose portion
 *     grade is the worst that the code has; any other code is not on this sheet, as is every code
 *     where the length is 0;
 *   - no byte of the results is changed, no other memory is touched but the stack, nothing is
 *     allocated, and nothing is kept from one call to the next;
 *   - it always returns.
 */
struct hatmuyon_part hatmuyon_find_code(const uint8_t *results, size_t results_length,
                                        uint16_t code);

/*
 * hatmuyon_grade_lot grades a warehouse lot.
 *
 * The caller owes:
 *   - `lot` may be read for `lot_length` bytes, and is not null, also where the length is 0;
 *   - during the call no other thread writes to the lot.
 * Nothing is owed of the bytes: any lot may be passed, of any length.
 *
 * It promises:
 *   - it accepts the lot with its grade, or refuses it by one of the numbers for a lot, with 3 in the
 *     place of a grade, and refuses none to which no ground applies;
 *   - no byte of the lot is changed, no other memory is touched but the stack, nothing is allocated,
 *     and nothing is kept from one call to the next;
 *   - it always returns.
 */
struct hatmuyon_lot_answer hatmuyon_grade_lot(const uint8_t *lot, size_t lot_length);

/*
 * The same five, but where a length is 0 nothing is owed of its pointer: it may be null, as that of
 * an empty vector in C++ may be. The address of a local byte is passed on in its place.
 *
 * Where a length is not 0, all is owed that is asked above: the pointer is not null and valid for
 * its length, the results of a grading overlap no other buffer, and other threads keep away as said
 * there. The promises are the same: a sheet of length 0 is refused by number 1, a second plan of
 * length 0 by 18 if the sheet is not refused by 1 to 12, a result buffer of length 0 is long enough
 * for a sheet without a unit, in results of length 0 no code is found, and a lot of length 0 is refused
 * by 6.
 */
static inline struct hatmuyon_answer hatmuyon_grade_nullable(const uint8_t *sheet,
                                                             size_t sheet_length, uint8_t *results,
                                                             size_t results_length)
{
    uint8_t no_byte = 0;

    return hatmuyon_grade(sheet_length == 0 ? &no_byte : sheet, sheet_length,
                          results_length == 0 ? &no_byte : results, results_length);
}

static inline struct hatmuyon_answer hatmuyon_grade_mold_nullable(const uint8_t *sheet,
                                                                  size_t sheet_length,
                                                                  uint8_t *results,
                                                                  size_t results_length)
{
    uint8_t no_byte = 0;

    return hatmuyon_grade_mold(sheet_length == 0 ? &no_byte : sheet, sheet_length,
                               results_length == 0 ? &no_byte : results, results_length);
}

static inline struct hatmuyon_answer hatmuyon_regrade_nullable(const uint8_t *sheet,
                                                               size_t sheet_length,
                                                               const uint8_t *plan,
                                                               size_t plan_length,
                                                               uint8_t *results,
                                                               size_t results_length)
{
    uint8_t no_byte = 0;

    return hatmuyon_regrade(sheet_length == 0 ? &no_byte : sheet, sheet_length,
                            plan_length == 0 ? &no_byte : plan, plan_length,
                            results_length == 0 ? &no_byte : results, results_length);
}

static inline struct hatmuyon_part hatmuyon_find_code_nullable(const uint8_t *results,
                                                               size_t results_length,
                                                               uint16_t code)
{
    uint8_t no_byte = 0;

    return hatmuyon_find_code(results_length == 0 ? &no_byte : results, results_length, code);
}

static inline struct hatmuyon_lot_answer hatmuyon_grade_lot_nullable(const uint8_t *lot,
                                                                     size_t lot_length)
{
    uint8_t no_byte = 0;

    return hatmuyon_grade_lot(lot_length == 0 ? &no_byte : lot, lot_length);
}

#ifdef __cplusplus
}
#endif

#endif
