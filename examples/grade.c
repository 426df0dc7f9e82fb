/*
 * Grades a tally sheet, a recorded one again under the plan of a new buyer, or a mold sheet, and
 * prints the answer and the result records; or grades a tally sheet and prints what became of a code;
 * or grades a warehouse lot and prints the answer.
 *
 *   grade [FILE]                      reads standard input if no file is named
 *   grade -regrade PLANFILE [FILE]    the buyer's plan is in PLANFILE, one plan record
 *   grade -mold [FILE]
 *   grade -find CODE [FILE]           the code in decimal, 0 to 65535
 *   grade -lot [FILE]
 *
 * The first line has number, units and offset; then comes a line for each result record, its fields
 * in hexadecimal. With -find come the offset in the results at which the code is found and the line
 * of that record, or 'not on this sheet'; of a refused sheet the first line as above. With -lot the
 * only line has number, grade and offset.
 *
 * The exit status is 0 for an accepted sheet or lot, 2 for a refused one, 3 for a code that is not on
 * this sheet, and 1 if the input cannot be read or the output cannot be written.
 */
#include <errno.h>
#include <stdint.h>
#include <stdio.h>
#include <stdlib.h>
#include <string.h>

#include "hatmuyon.h"

/* The bytes of an open file to its end, or NULL; never NULL for an empty file. */
static uint8_t *read_open(FILE *file, size_t *length)
{
    size_t room = 65536, filled = 0;
    uint8_t *bytes = malloc(room);

    while (bytes != NULL) {
        filled += fread(bytes + filled, 1, room - filled, file);
        if (filled < room)
            break;
        uint8_t *larger = room <= SIZE_MAX / 2 ? realloc(bytes, 2 * room) : NULL;
        if (larger == NULL)
            free(bytes);
        bytes = larger;
        room *= 2;
    }
    if (bytes != NULL && ferror(file)) {
        free(bytes);
        bytes = NULL;
    }
    *length = filled;
    return bytes;
}

/* The bytes of a file, or of standard input if the name is NULL; ends the program if they cannot be
 * read. */
static uint8_t *read_all(const char *name, size_t *length)
{
    FILE *file = name != NULL ? fopen(name, "rb") : stdin;
    uint8_t *bytes = file != NULL ? read_open(file, length) : NULL;

    if (bytes == NULL) {
        fprintf(stderr, "grade: cannot read %s: %s\n", name != NULL ? name : "standard input",
                strerror(errno));
        exit(1);
    }
    if (name != NULL)
        fclose(file);
    return bytes;
}

static unsigned two(const uint8_t *bytes)
{
    return 256u * bytes[0] + bytes[1];
}

static unsigned long four(const uint8_t *bytes)
{
    return 65536ul * two(bytes) + two(bytes + 2);
}

/* Prints a result record of a tally sheet: mark, code, portion, code grade, plan, standing, four
 * CuSums, four overshoots. */
static void print_record(const uint8_t *record)
{
    printf("%04x %04x %02x %02x %02x %02x %04x %04x %04x %04x %08lx %08lx %08lx %08lx\n",
           two(record), two(record + HATMUYON_RESULT_CODE),
           record[HATMUYON_RESULT_PORTION_GRADE], record[HATMUYON_RESULT_CODE_GRADE],
           record[HATMUYON_RESULT_PLAN_GRADE], record[HATMUYON_RESULT_STANDING],
           two(record + HATMUYON_RESULT_CRITICAL), two(record + HATMUYON_RESULT_SEVERE),
           two(record + HATMUYON_RESULT_MAJOR), two(record + HATMUYON_RESULT_TOTAL),
           four(record + HATMUYON_RESULT_CRITICAL_OVERSHOOT),
           four(record + HATMUYON_RESULT_SEVERE_OVERSHOOT),
           four(record + HATMUYON_RESULT_MAJOR_OVERSHOOT),
           four(record + HATMUYON_RESULT_TOTAL_OVERSHOOT));
}

/* Prints a result record of a mold sheet: mark, met, CuSum. */
static void print_mold_record(const uint8_t *record)
{
    printf("%04x %02x %04x\n", two(record), record[HATMUYON_MOLD_RESULT_MET],
           two(record + HATMUYON_MOLD_RESULT_CUSUM));
}

/* The code that decimal digits name, or -1 if they name none. */
static long code_of(const char *digits)
{
    long code = 0;

    if (*digits == '\0')
        return -1;
    for (; *digits != '\0'; digits++) {
        if (*digits < '0' || *digits > '9')
            return -1;
        code = 10 * code + (*digits - '0');
        if (code > UINT16_MAX)
            return -1;
    }
    return code;
}

/* Prints what became of a code in finished results, and tells the exit status. */
static int print_code(const uint8_t *results, size_t results_length, uint16_t code)
{
    struct hatmuyon_part part = hatmuyon_find_code(results, results_length, code);

    switch (part.number) {
    case HATMUYON_FOUND:
        printf("found at offset %zu\n", part.offset);
        print_record(results + part.offset);
        return 0;
    case HATMUYON_NOT_ON_THIS_SHEET:
        printf("not on this sheet\n");
        return 3;
    default: /* not after a grading, whose results are whole records */
        printf("number %lu, offset %zu\n", (unsigned long)part.number, part.offset);
        return 2;
    }
}

/* Grades a lot, prints the answer, and tells the exit status. */
static int print_lot(const uint8_t *lot, size_t lot_length)
{
    struct hatmuyon_lot_answer answer = hatmuyon_grade_lot(lot, lot_length);

    printf("number %lu, grade %u, offset %zu\n", (unsigned long)answer.number, answer.grade,
           answer.offset);
    return answer.number == HATMUYON_ACCEPTED ? 0 : 2;
}

/* Grades a sheet, under the plan of a new buyer if there is one, prints the answer and the result
 * records, or what became of a code unless it is -1, and tells the exit status. */
static int print_sheet(const uint8_t *sheet, size_t sheet_length, int mold, const uint8_t *plan,
                       size_t plan_length, long code)
{
    /* Of a mold sheet the result records are smaller. */
    static uint8_t results[HATMUYON_RESULT_SIZE * HATMUYON_MOST_UNITS];
    struct hatmuyon_answer answer;

    if (mold)
        answer = hatmuyon_grade_mold(sheet, sheet_length, results, sizeof results);
    else if (plan != NULL)
        answer = hatmuyon_regrade(sheet, sheet_length, plan, plan_length, results, sizeof results);
    else
        answer = hatmuyon_grade(sheet, sheet_length, results, sizeof results);

    if (code >= 0 && answer.number == HATMUYON_ACCEPTED)
        return print_code(results, HATMUYON_RESULT_SIZE * answer.units, (uint16_t)code);
    printf("number %lu, units %zu, offset %zu\n", (unsigned long)answer.number, answer.units,
           answer.offset);
    for (size_t unit = 0; unit < answer.units; unit++)
        if (mold)
            print_mold_record(results + HATMUYON_MOLD_RESULT_SIZE * unit);
        else
            print_record(results + HATMUYON_RESULT_SIZE * unit);
    return answer.number == HATMUYON_ACCEPTED ? 0 : 2;
}

int main(int argc, char **argv)
{
    int mold = argc > 1 && strcmp(argv[1], "-mold") == 0;
    int regrade = argc > 1 && strcmp(argv[1], "-regrade") == 0;
    int find = argc > 1 && strcmp(argv[1], "-find") == 0;
    int lot = argc > 1 && strcmp(argv[1], "-lot") == 0;
    /* The arguments before the name of the sheet or lot, that of the program among them. */
    int before = mold || lot ? 2 : regrade || find ? 3 : 1;

    if (argc < before || argc > before + 1) {
        fprintf(stderr, "usage: grade [-mold | -regrade PLANFILE | -find CODE | -lot] [FILE]\n");
        return 1;
    }
    long code = find ? code_of(argv[2]) : -1;
    if (find && code < 0) {
        fprintf(stderr, "grade: '%s' is not a code from 0 to 65535\n", argv[2]);
        return 1;
    }
    size_t sheet_length, plan_length = 0;
    uint8_t *plan = regrade ? read_all(argv[2], &plan_length) : NULL;
    uint8_t *sheet = read_all(argc > before ? argv[before] : NULL, &sheet_length);

    int status = lot ? print_lot(sheet, sheet_length)
                     : print_sheet(sheet, sheet_length, mold, plan, plan_length, code);
    free(sheet);
    free(plan);

    if (fflush(stdout) != 0 || ferror(stdout)) {
        fprintf(stderr, "grade: cannot write: %s\n", strerror(errno));
        return 1;
    }
    return status;
}
