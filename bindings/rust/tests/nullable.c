/*
 * hatmuyon_grade_nullable, hatmuyon_grade_mold_nullable, hatmuyon_regrade_nullable,
 * hatmuyon_find_code_nullable and hatmuyon_grade_lot_nullable with null pointers and, compiled as C++,
 * with empty vectors. The first thing that is not as it should be is printed, and the exit status is 1.
 *
 * The header's functions call watched_grade, watched_grade_mold, watched_regrade, watched_find_code and
 * watched_grade_lot here, which look at the pointers and call the archive.
 */
#define hatmuyon_grade watched_grade
#define hatmuyon_grade_mold watched_grade_mold
#define hatmuyon_regrade watched_regrade
#define hatmuyon_find_code watched_find_code
#define hatmuyon_grade_lot watched_grade_lot
#include "hatmuyon.h"
#undef hatmuyon_grade
#undef hatmuyon_grade_mold
#undef hatmuyon_regrade
#undef hatmuyon_find_code
#undef hatmuyon_grade_lot

#include <stdio.h>
#include <stdlib.h>
#include <string.h>
#ifdef __cplusplus
#include <vector>
#endif

static const uint8_t *last_sheet;
static const uint8_t *last_plan;
static uint8_t *last_results;
static const uint8_t *last_finished;
static const uint8_t *last_lot;

static void must(int holds, const char *what, int line)
{
    if (!holds) {
        printf("line %d: %s\n", line, what);
        exit(1);
    }
}

#define MUST(condition) must(condition, #condition, __LINE__)

#ifdef __cplusplus
extern "C" {
#endif

typedef struct hatmuyon_answer grading(const uint8_t *sheet, size_t sheet_length,
                                       uint8_t *results, size_t results_length);

grading hatmuyon_grade, hatmuyon_grade_mold;
struct hatmuyon_answer hatmuyon_regrade(const uint8_t *sheet, size_t sheet_length,
                                        const uint8_t *plan, size_t plan_length,
                                        uint8_t *results, size_t results_length);
struct hatmuyon_part hatmuyon_find_code(const uint8_t *results, size_t results_length,
                                        uint16_t code);
struct hatmuyon_lot_answer hatmuyon_grade_lot(const uint8_t *lot, size_t lot_length);

static struct hatmuyon_answer watched(grading *archive, const uint8_t *sheet, size_t sheet_length,
                                      uint8_t *results, size_t results_length)
{
    MUST(sheet != NULL);
    MUST(results != NULL);
    last_sheet = sheet;
    last_results = results;
    return archive(sheet, sheet_length, results, results_length);
}

struct hatmuyon_answer watched_grade(const uint8_t *sheet, size_t sheet_length,
                                     uint8_t *results, size_t results_length)
{
    return watched(hatmuyon_grade, sheet, sheet_length, results, results_length);
}

struct hatmuyon_answer watched_grade_mold(const uint8_t *sheet, size_t sheet_length,
                                          uint8_t *results, size_t results_length)
{
    return watched(hatmuyon_grade_mold, sheet, sheet_length, results, results_length);
}

struct hatmuyon_answer watched_regrade(const uint8_t *sheet, size_t sheet_length,
                                       const uint8_t *plan, size_t plan_length,
                                       uint8_t *results, size_t results_length)
{
    MUST(sheet != NULL);
    MUST(plan != NULL);
    MUST(results != NULL);
    last_sheet = sheet;
    last_plan = plan;
    last_results = results;
    return hatmuyon_regrade(sheet, sheet_length, plan, plan_length, results, results_length);
}

struct hatmuyon_part watched_find_code(const uint8_t *results, size_t results_length, uint16_t code)
{
    MUST(results != NULL);
    last_finished = results;
    return hatmuyon_find_code(results, results_length, code);
}

struct hatmuyon_lot_answer watched_grade_lot(const uint8_t *lot, size_t lot_length)
{
    MUST(lot != NULL);
    last_lot = lot;
    return hatmuyon_grade_lot(lot, lot_length);
}

#ifdef __cplusplus
}
#endif

static int is(struct hatmuyon_answer answer, uint32_t number, size_t units, size_t offset)
{
    return answer.number == number && answer.units == units && answer.offset == offset;
}

static int is_part(struct hatmuyon_part part, uint32_t number, size_t offset, size_t length)
{
    return part.number == number && part.offset == offset && part.length == length;
}

static int is_lot(struct hatmuyon_lot_answer answer, uint32_t number, uint8_t grade)
{
    return answer.number == number && answer.grade == grade && answer.offset == 0;
}

/* Tries the nullable form of a grading on a sheet of one unit: its first bytes, so many, are a sheet
 * without a unit. */
static void try_with(grading *nullable, grading *archive, const uint8_t *sheet, size_t without,
                     size_t whole, size_t result_size)
{
    uint8_t results[HATMUYON_RESULT_SIZE], filled[HATMUYON_RESULT_SIZE];
    uint8_t expected[HATMUYON_RESULT_SIZE];

    memset(filled, 0xEE, sizeof filled);
    memset(results, 0xEE, sizeof results);
    MUST(is(archive(sheet, whole, expected, result_size), 0, 1, whole));

    MUST(is(nullable(NULL, 0, NULL, 0), 1, 0, 0));
    MUST(is(nullable(NULL, 0, results, result_size), 1, 0, 0));
    MUST(last_results == results);
    MUST(is(nullable(sheet, without, NULL, 0), 0, 0, without));
    MUST(last_sheet == sheet);
    MUST(is(nullable(sheet, whole, NULL, 0), 13, 0, whole));
    /* A pointer whose length is 0 need not be null. */
    MUST(is(nullable(sheet, 0, results, 0), 1, 0, 0));
    MUST(last_sheet != sheet && last_results != results);
    MUST(memcmp(results, filled, sizeof results) == 0);
    MUST(is(nullable(sheet, whole, results, result_size), 0, 1, whole));
    MUST(last_sheet == sheet && last_results == results);
    MUST(memcmp(results, expected, result_size) == 0);

#ifdef __cplusplus
    const std::vector<uint8_t> no_sheet;
    const std::vector<uint8_t> vector_sheet(sheet, sheet + whole);
    std::vector<uint8_t> no_results;
    std::vector<uint8_t> vector_results(result_size);
    const auto grade = [=](const std::vector<uint8_t> &from, std::vector<uint8_t> &to) {
        return nullable(from.data(), from.size(), to.data(), to.size());
    };
    MUST(is(grade(no_sheet, no_results), 1, 0, 0));
    MUST(is(grade(no_sheet, vector_results), 1, 0, 0));
    MUST(is(grade(vector_sheet, no_results), 13, 0, whole));
    MUST(is(grade(vector_sheet, vector_results), 0, 1, whole));
    MUST(memcmp(vector_results.data(), expected, result_size) == 0);
#endif
}

/* Tries hatmuyon_regrade_nullable on a sheet of one unit, whose own plan is the second plan, too. */
static void try_regrade(const uint8_t *sheet, size_t whole)
{
    enum { PLAN = HATMUYON_PLAN_SIZE, RESULT = HATMUYON_RESULT_SIZE };
    uint8_t plan[PLAN], results[RESULT], filled[RESULT], expected[RESULT];

    memcpy(plan, sheet, PLAN);
    memset(filled, 0xEE, RESULT);
    memset(results, 0xEE, RESULT);
    MUST(is(hatmuyon_regrade(sheet, whole, plan, PLAN, expected, RESULT), 0, 1, whole));

    MUST(is(hatmuyon_regrade_nullable(NULL, 0, NULL, 0, NULL, 0), 1, 0, 0));
    MUST(is(hatmuyon_regrade_nullable(NULL, 0, plan, PLAN, results, RESULT), 1, 0, 0));
    MUST(last_plan == plan && last_results == results);
    MUST(is(hatmuyon_regrade_nullable(sheet, whole, NULL, 0, results, RESULT), 18, 0, 0));
    MUST(last_sheet == sheet && last_results == results);
    MUST(is(hatmuyon_regrade_nullable(sheet, whole, NULL, 0, NULL, 0), 18, 0, 0));
    MUST(is(hatmuyon_regrade_nullable(sheet, PLAN, plan, PLAN, NULL, 0), 0, 0, PLAN));
    MUST(last_sheet == sheet && last_plan == plan);
    MUST(is(hatmuyon_regrade_nullable(sheet, whole, plan, PLAN, NULL, 0), 13, 0, whole));
    /* A pointer whose length is 0 need not be null. */
    MUST(is(hatmuyon_regrade_nullable(sheet, 0, plan, 0, results, 0), 1, 0, 0));
    MUST(last_sheet != sheet && last_plan != plan && last_results != results);
    MUST(memcmp(results, filled, RESULT) == 0);
    MUST(is(hatmuyon_regrade_nullable(sheet, whole, plan, PLAN, results, RESULT), 0, 1, whole));
    MUST(last_sheet == sheet && last_plan == plan && last_results == results);
    MUST(memcmp(results, expected, RESULT) == 0);
    /* Sheet and plan may overlap. */
    memset(results, 0xEE, RESULT);
    MUST(is(hatmuyon_regrade_nullable(sheet, whole, sheet, PLAN, results, RESULT), 0, 1, whole));
    MUST(memcmp(results, expected, RESULT) == 0);

#ifdef __cplusplus
    const std::vector<uint8_t> nothing;
    const std::vector<uint8_t> vector_sheet(sheet, sheet + whole);
    const std::vector<uint8_t> vector_plan(plan, plan + PLAN);
    std::vector<uint8_t> no_results;
    std::vector<uint8_t> vector_results(RESULT);
    const auto regrade = [](const std::vector<uint8_t> &from, const std::vector<uint8_t> &by,
                            std::vector<uint8_t> &to) {
        return hatmuyon_regrade_nullable(from.data(), from.size(), by.data(), by.size(),
                                         to.data(), to.size());
    };
    MUST(is(regrade(nothing, nothing, no_results), 1, 0, 0));
    MUST(is(regrade(nothing, vector_plan, vector_results), 1, 0, 0));
    MUST(is(regrade(vector_sheet, nothing, vector_results), 18, 0, 0));
    MUST(is(regrade(vector_sheet, vector_plan, no_results), 13, 0, whole));
    MUST(is(regrade(vector_sheet, vector_plan, vector_results), 0, 1, whole));
    MUST(memcmp(vector_results.data(), expected, RESULT) == 0);
#endif
}

/* Tries hatmuyon_find_code_nullable on results of three records. */
static void try_find_code(void)
{
    enum { RESULT = HATMUYON_RESULT_SIZE, RESULTS = 3 * RESULT };
    uint8_t results[RESULTS] = {0}, kept[RESULTS];

    /* Codes 0, 258 and 258, the last worse than the one before it. */
    results[RESULT + HATMUYON_RESULT_CODE] = results[2 * RESULT + HATMUYON_RESULT_CODE] = 1;
    results[RESULT + HATMUYON_RESULT_CODE + 1] = results[2 * RESULT + HATMUYON_RESULT_CODE + 1] = 2;
    results[2 * RESULT + HATMUYON_RESULT_PORTION_GRADE] = HATMUYON_GRADE_B;
    memcpy(kept, results, RESULTS);

    MUST(is_part(hatmuyon_find_code_nullable(NULL, 0, 0), HATMUYON_NOT_ON_THIS_SHEET, 0, 0));
    /* A pointer whose length is 0 need not be null. */
    MUST(is_part(hatmuyon_find_code_nullable(results, 0, 0), HATMUYON_NOT_ON_THIS_SHEET, 0, 0));
    MUST(last_finished != results);
    MUST(is_part(hatmuyon_find_code_nullable(results, RESULTS, 258), HATMUYON_FOUND, 2 * RESULT,
                 RESULT));
    MUST(last_finished == results);
    MUST(is_part(hatmuyon_find_code_nullable(results, RESULTS, 0), HATMUYON_FOUND, 0, RESULT));
    MUST(is_part(hatmuyon_find_code_nullable(results, RESULTS, 513), HATMUYON_NOT_ON_THIS_SHEET, 0,
                 0));
    MUST(is_part(hatmuyon_find_code_nullable(results, 1, 0), HATMUYON_REFUSED_NOT_WHOLE_RECORDS, 0,
                 0));
    MUST(last_finished == results);
    MUST(memcmp(results, kept, RESULTS) == 0);

#ifdef __cplusplus
    const std::vector<uint8_t> nothing;
    const std::vector<uint8_t> finished(results, results + RESULTS);
    const auto find_code = [](const std::vector<uint8_t> &in, uint16_t code) {
        return hatmuyon_find_code_nullable(in.data(), in.size(), code);
    };
    MUST(is_part(find_code(nothing, 0), HATMUYON_NOT_ON_THIS_SHEET, 0, 0));
    MUST(is_part(find_code(finished, 258), HATMUYON_FOUND, 2 * RESULT, RESULT));
#endif
}

/* Tries hatmuyon_grade_lot_nullable on a lot without a defect, whose AQLs are all 1.0. */
static void try_grade_lot(void)
{
    enum { LOT = HATMUYON_LOT_SIZE, AQLS = 12 };
    uint8_t lot[LOT] = {HATMUYON_LOT_MARK >> 8, HATMUYON_LOT_MARK & 0xFF, 6}, kept[LOT];
    int aql;

    for (aql = 0; aql < AQLS; aql++)
        lot[3 + 2 * aql + 1] = 10;
    lot[LOT - 1] = HATMUYON_GRADE_B;
    memcpy(kept, lot, LOT);

    MUST(is_lot(hatmuyon_grade_lot_nullable(NULL, 0), HATMUYON_REFUSED_UNKNOWN_MARK,
                HATMUYON_GRADE_SUBSTANDARD));
    /* A pointer whose length is 0 need not be null. */
    MUST(is_lot(hatmuyon_grade_lot_nullable(lot, 0), HATMUYON_REFUSED_UNKNOWN_MARK,
                HATMUYON_GRADE_SUBSTANDARD));
    MUST(last_lot != lot);
    MUST(is_lot(hatmuyon_grade_lot_nullable(lot, LOT), HATMUYON_ACCEPTED, HATMUYON_GRADE_B));
    MUST(last_lot == lot);
    MUST(is_lot(hatmuyon_grade_lot_nullable(lot, LOT - 1), HATMUYON_REFUSED_CUT_SHORT,
                HATMUYON_GRADE_SUBSTANDARD));
    MUST(memcmp(lot, kept, LOT) == 0);

#ifdef __cplusplus
    const std::vector<uint8_t> nothing;
    const std::vector<uint8_t> vector_lot(lot, lot + LOT);
    const auto grade_lot = [](const std::vector<uint8_t> &in) {
        return hatmuyon_grade_lot_nullable(in.data(), in.size());
    };
    MUST(is_lot(grade_lot(nothing), HATMUYON_REFUSED_UNKNOWN_MARK, HATMUYON_GRADE_SUBSTANDARD));
    MUST(is_lot(grade_lot(vector_lot), HATMUYON_ACCEPTED, HATMUYON_GRADE_B));
#endif
}

int main(void)
{
    enum { PLAN = HATMUYON_PLAN_SIZE, TALLY = PLAN + HATMUYON_UNIT_SIZE };
    enum { OPENING = HATMUYON_MOLD_OPENING_SIZE, MOLD = OPENING + HATMUYON_MOLD_UNIT_SIZE };
    /* A plan of zeros, which no ground refuses, and a unit of zeros. */
    uint8_t tally[TALLY] = {0x50, 0x4C};
    const uint8_t mold[MOLD] = {0x4D, 0x44, 0, 0x4D, 0x55, 0, 0, 0};

    tally[PLAN] = 0x53;
    tally[PLAN + 1] = 0x55;
    try_with(hatmuyon_grade_nullable, hatmuyon_grade, tally, PLAN, TALLY, HATMUYON_RESULT_SIZE);
    try_with(hatmuyon_grade_mold_nullable, hatmuyon_grade_mold, mold, OPENING, MOLD,
             HATMUYON_MOLD_RESULT_SIZE);
    try_regrade(tally, TALLY);
    try_find_code();
    try_grade_lot();
    return 0;
}
