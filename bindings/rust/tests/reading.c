/*
 * How far hatmuyon_find_code and hatmuyon_grade_lot read. The results, or the lot, end right before
 * memory that cannot be read, so that a byte too many ends the program, and at last lie in memory that
 * cannot be written. The first thing that is not as it should be is printed, and the exit status is 1.
 */
#define _DEFAULT_SOURCE
#include <stdio.h>
#include <stdlib.h>
#include <string.h>
#include <sys/mman.h>
#include <unistd.h>

#include "hatmuyon.h"

static void must(int holds, const char *what, int line)
{
    if (!holds) {
        printf("line %d: %s\n", line, what);
        exit(1);
    }
}

#define MUST(condition) must(condition, #condition, __LINE__)

static int is(struct hatmuyon_part part, uint32_t number, size_t offset, size_t length)
{
    return part.number == number && part.offset == offset && part.length == length;
}

static int is_lot(struct hatmuyon_lot_answer answer, uint32_t number, uint8_t grade)
{
    return answer.number == number && answer.grade == grade && answer.offset == 0;
}

static void put(uint8_t *record, uint16_t code, uint8_t portion_grade)
{
    memset(record, 0xEE, HATMUYON_RESULT_SIZE);
    record[HATMUYON_RESULT_CODE] = code >> 8;
    record[HATMUYON_RESULT_CODE + 1] = code & 0xFF;
    record[HATMUYON_RESULT_PORTION_GRADE] = portion_grade;
}

enum { RESULT = HATMUYON_RESULT_SIZE, RECORDS = 4, RESULTS = RECORDS * RESULT };

/* What stands before the record where the reading ends: other codes alone, the code alone, each by
 * turns, and the code in every ninth record. */
enum { PATTERNS = 4, PLACES = 64 };

static uint16_t code_before(int pattern, size_t record)
{
    int has = pattern == 1 || (pattern == 2 && record % 2 == 0) || (pattern == 3 && record % 9 == 0);

    return has ? 7 : 8;
}

/* The first Substandard portion of the code stands at every place of several blocks of eight records,
 * right before memory that cannot be read, of which the results are said to have a page more. */
static void ends_at_every_place(uint8_t *end, size_t page)
{
    for (int pattern = 0; pattern < PATTERNS; pattern++)
        for (size_t place = 0; place < PLACES; place++) {
            uint8_t *results = end - (place + 1) * RESULT;

            for (size_t record = 0; record < place; record++)
                put(results + record * RESULT, code_before(pattern, record), HATMUYON_GRADE_C);
            put(results + place * RESULT, 7, 200);
            MUST(is(hatmuyon_find_code(results, (place + 1) * RESULT + page, 7), HATMUYON_FOUND,
                    place * RESULT, RESULT));
        }
}

enum { LOT = HATMUYON_LOT_SIZE, MINOR = LOT - 3 };

/* A lot of six sample units with so many minor defects and the prerequisite grade A. The AQLs are 1.0,
 * 1.5 and 12.5 at A, B and C, so that with nine defects all grades are looked at. */
static void put_lot(uint8_t *lot, uint8_t minor)
{
    static const uint8_t aqls[] = {10, 15, 125};
    int cell;

    memset(lot, 0, LOT);
    lot[0] = HATMUYON_LOT_MARK >> 8;
    lot[1] = HATMUYON_LOT_MARK & 0xFF;
    lot[2] = 6;
    for (cell = 0; cell < 12; cell++)
        lot[3 + 2 * cell + 1] = aqls[cell / 4];
    lot[MINOR + 1] = minor;
}

/* Lots that end where memory that cannot be read begins, in memory that cannot be written. */
static void grades_lots(uint8_t *pages, uint8_t *end, size_t page)
{
    static const struct {
        uint8_t minor, grade;
    } lots[] = {{0, HATMUYON_GRADE_A}, {1, HATMUYON_GRADE_A}, {8, HATMUYON_GRADE_C},
                {9, HATMUYON_GRADE_SUBSTANDARD}};
    uint8_t *lot = end - LOT;

    for (size_t i = 0; i < sizeof lots / sizeof lots[0]; i++) {
        MUST(mprotect(pages, page, PROT_READ | PROT_WRITE) == 0);
        put_lot(lot, lots[i].minor);
        MUST(mprotect(pages, page, PROT_READ) == 0);
        MUST(is_lot(hatmuyon_grade_lot(lot, LOT), HATMUYON_ACCEPTED, lots[i].grade));
    }

    /* A lot of another length is not read behind its mark, and without one it is not read at all. */
    MUST(mprotect(pages, page, PROT_READ | PROT_WRITE) == 0);
    for (size_t readable = 2; readable < LOT; readable++) {
        put_lot(end - LOT, 0);
        memmove(end - readable, lot, readable);
        MUST(is_lot(hatmuyon_grade_lot(end - readable, readable), HATMUYON_REFUSED_CUT_SHORT,
                    HATMUYON_GRADE_SUBSTANDARD));
        MUST(is_lot(hatmuyon_grade_lot(end - readable, LOT + 1), HATMUYON_REFUSED_CUT_SHORT,
                    HATMUYON_GRADE_SUBSTANDARD));
        MUST(is_lot(hatmuyon_grade_lot(end - readable, SIZE_MAX / 2), HATMUYON_REFUSED_CUT_SHORT,
                    HATMUYON_GRADE_SUBSTANDARD));
    }
    MUST(is_lot(hatmuyon_grade_lot(end, 0), HATMUYON_REFUSED_UNKNOWN_MARK,
                HATMUYON_GRADE_SUBSTANDARD));
    MUST(is_lot(hatmuyon_grade_lot(end, 1), HATMUYON_REFUSED_UNKNOWN_MARK,
                HATMUYON_GRADE_SUBSTANDARD));
    /* A wrong mark ends the reading, too. */
    end[-2] = 0;
    MUST(is_lot(hatmuyon_grade_lot(end - 2, LOT), HATMUYON_REFUSED_UNKNOWN_MARK,
                HATMUYON_GRADE_SUBSTANDARD));
}

int main(void)
{
    size_t page = (size_t)sysconf(_SC_PAGESIZE);
    uint8_t *pages = (uint8_t *)mmap(NULL, 2 * page, PROT_READ | PROT_WRITE,
                                     MAP_PRIVATE | MAP_ANONYMOUS, -1, 0);
    uint8_t *end, *results;

    MUST(pages != MAP_FAILED);
    end = pages + page;
    MUST(mprotect(end, page, PROT_NONE) == 0);
    ends_at_every_place(end, page);

    results = end - RESULTS;
    put(results, 7, HATMUYON_GRADE_A);
    put(results + RESULT, 8, HATMUYON_GRADE_SUBSTANDARD);
    put(results + 2 * RESULT, 7, HATMUYON_GRADE_C);
    put(results + 3 * RESULT, 9, 200);
    MUST(mprotect(pages, page, PROT_READ) == 0);

    /* To the last byte, and not beyond. */
    MUST(is(hatmuyon_find_code(results, RESULTS, 7), HATMUYON_FOUND, 2 * RESULT, RESULT));
    MUST(is(hatmuyon_find_code(results, RESULTS, 10), HATMUYON_NOT_ON_THIS_SHEET, 0, 0));
    MUST(is(hatmuyon_find_code(end, 0, 7), HATMUYON_NOT_ON_THIS_SHEET, 0, 0));
    /* Of more results, which cannot be read, none behind the first Substandard portion of the code. */
    MUST(is(hatmuyon_find_code(results, RESULTS + page, 9), HATMUYON_FOUND, 3 * RESULT, RESULT));
    MUST(is(hatmuyon_find_code(results, RESULTS + page, 8), HATMUYON_FOUND, RESULT, RESULT));
    /* What is refused is not read. */
    MUST(is(hatmuyon_find_code(end, 1, 7), HATMUYON_REFUSED_NOT_WHOLE_RECORDS, 0, 0));
    MUST(is(hatmuyon_find_code(end, RESULT + 1, 7), HATMUYON_REFUSED_NOT_WHOLE_RECORDS, 0, 0));

    grades_lots(pages, end, page);
    return 0;
}
