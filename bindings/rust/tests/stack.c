/*
 * Prints the bytes of stack that each function takes, hatmuyon_grade, hatmuyon_grade_mold,
 * hatmuyon_regrade under the plan named, then hatmuyon_find_code in the result buffer of that, and
 * hatmuyon_grade_lot, for each sheet or lot named: stack PLANFILE FILE...
 *
 * A thread paints the unused part of its stack, calls, and looks how far down the paint is gone. It
 * counts from its own frame, so that the figure is that of the function and a little more.
 */
#define _XOPEN_SOURCE 700
#include <pthread.h>
#include <stdio.h>

#include "hatmuyon.h"

/* The bytes right below its frame the thread uses itself and leaves unpainted; no figure is less. */
enum { STACK = 1 << 18, UNPAINTED = 256, PAINT = 0xA5 };

/* Aligned as a stack must be. */
static union {
    long double alignment;
    uint8_t bytes[STACK];
} stack;
static uint8_t sheet[65536];
static size_t sheet_length;
static uint8_t plan[65536];
static size_t plan_length;
static uint8_t results[HATMUYON_RESULT_SIZE * HATMUYON_MOST_UNITS];
static enum { GRADE, GRADE_MOLD, REGRADE, FIND_CODE, GRADE_LOT, FUNCTIONS } function;
static size_t used;

static void *call(void *nothing)
{
    uint8_t *frame = (uint8_t *)__builtin_frame_address(0);
    volatile uint8_t *byte;

    for (byte = stack.bytes; byte < frame - UNPAINTED; byte++)
        *byte = PAINT;
    if (function == GRADE)
        hatmuyon_grade(sheet, sheet_length, results, sizeof results);
    else if (function == GRADE_MOLD)
        hatmuyon_grade_mold(sheet, sheet_length, results, sizeof results);
    else if (function == REGRADE)
        hatmuyon_regrade(sheet, sheet_length, plan, plan_length, results, sizeof results);
    else if (function == FIND_CODE)
        hatmuyon_find_code(results, sizeof results, 5);
    else
        hatmuyon_grade_lot(sheet, sheet_length);
    for (byte = stack.bytes; *byte == PAINT && byte < frame - UNPAINTED; byte++)
        ;
    used = (size_t)(frame - byte);
    return nothing;
}

static int measure(void)
{
    pthread_attr_t attributes;
    pthread_t thread;

    return pthread_attr_init(&attributes) == 0 &&
           pthread_attr_setstack(&attributes, stack.bytes, sizeof stack.bytes) == 0 &&
           pthread_create(&thread, &attributes, call, NULL) == 0 &&
           pthread_join(thread, NULL) == 0;
}

static int read_file(const char *name, uint8_t *bytes, size_t room, size_t *length)
{
    FILE *file = fopen(name, "rb");

    if (file == NULL)
        return 0;
    *length = fread(bytes, 1, room, file);
    fclose(file);
    return 1;
}

int main(int argc, char **argv)
{
    size_t most = 0;
    int file;

    if (argc < 2 || !read_file(argv[1], plan, sizeof plan, &plan_length)) {
        printf("no plan\n");
        return 1;
    }
    for (file = 2; file < argc; file++)
        for (function = GRADE; function < FUNCTIONS; function++) {
            if (!read_file(argv[file], sheet, sizeof sheet, &sheet_length) || !measure()) {
                printf("cannot measure %s\n", argv[file]);
                return 1;
            }
            printf("%zu\n", used);
            if (used > most)
                most = used;
        }
    /* If no paint is gone, something is wrong with the paint. */
    return most > UNPAINTED ? 0 : 1;
}
