/* Prints what include/hatmuyon.h says of version, layout and numbers, a name and a value a line. */
#include <stdio.h>

#include "hatmuyon.h"

struct behind_a_byte {
    char byte;
    struct hatmuyon_answer answer;
};

struct part_behind_a_byte {
    char byte;
    struct hatmuyon_part part;
};

struct lot_behind_a_byte {
    char byte;
    struct hatmuyon_lot_answer lot;
};

static void value(const char *name, size_t value)
{
    printf("%s %zu\n", name, value);
}

#define ANSWER(field) \
    value(#field " offset", offsetof(struct hatmuyon_answer, field)); \
    value(#field " size", sizeof(((struct hatmuyon_answer *)0)->field))

#define PART(field) \
    value("part " #field " offset", offsetof(struct hatmuyon_part, field)); \
    value("part " #field " size", sizeof(((struct hatmuyon_part *)0)->field))

#define LOT(field) \
    value("lot " #field " offset", offsetof(struct hatmuyon_lot_answer, field)); \
    value("lot " #field " size", sizeof(((struct hatmuyon_lot_answer *)0)->field))

int main(void)
{
    printf("version %s\n", HATMUYON_VERSION);
    value("version major", HATMUYON_VERSION_MAJOR);
    value("version minor", HATMUYON_VERSION_MINOR);
    value("version patch", HATMUYON_VERSION_PATCH);

    value("answer size", sizeof(struct hatmuyon_answer));
    value("answer alignment", offsetof(struct behind_a_byte, answer));
    ANSWER(number);
    ANSWER(units);
    ANSWER(offset);

    value("part size", sizeof(struct hatmuyon_part));
    value("part alignment", offsetof(struct part_behind_a_byte, part));
    PART(number);
    PART(offset);
    PART(length);

    value("lot answer size", sizeof(struct hatmuyon_lot_answer));
    value("lot answer alignment", offsetof(struct lot_behind_a_byte, lot));
    LOT(number);
    LOT(grade);
    LOT(offset);

    value("plan mark", HATMUYON_PLAN_MARK);
    value("unit mark", HATMUYON_UNIT_MARK);
    value("redesignation mark", HATMUYON_REDESIGNATION_MARK);
    value("break mark", HATMUYON_BREAK_MARK);
    value("result mark", HATMUYON_RESULT_MARK);

    value("plan size", HATMUYON_PLAN_SIZE);
    value("unit size", HATMUYON_UNIT_SIZE);
    value("redesignation size", HATMUYON_REDESIGNATION_SIZE);
    value("break size", HATMUYON_BREAK_SIZE);
    value("result size", HATMUYON_RESULT_SIZE);

    value("mold sheet mark", HATMUYON_MOLD_SHEET_MARK);
    value("mold unit mark", HATMUYON_MOLD_UNIT_MARK);
    value("mold result mark", HATMUYON_MOLD_RESULT_MARK);

    value("mold opening size", HATMUYON_MOLD_OPENING_SIZE);
    value("mold unit size", HATMUYON_MOLD_UNIT_SIZE);
    value("mold result size", HATMUYON_MOLD_RESULT_SIZE);

    value("lot mark", HATMUYON_LOT_MARK);
    value("lot size", HATMUYON_LOT_SIZE);

    value("most units", HATMUYON_MOST_UNITS);
    value("largest count", HATMUYON_LARGEST_COUNT);
    value("largest plan number", HATMUYON_LARGEST_PLAN_NUMBER);
    value("mold levels", HATMUYON_MOLD_LEVELS);
    value("most positive fields", HATMUYON_MOST_POSITIVE_FIELDS);
    value("stack size", HATMUYON_STACK_SIZE);

    value("code at", HATMUYON_RESULT_CODE);
    value("portion grade at", HATMUYON_RESULT_PORTION_GRADE);
    value("code grade at", HATMUYON_RESULT_CODE_GRADE);
    value("plan grade at", HATMUYON_RESULT_PLAN_GRADE);
    value("standing at", HATMUYON_RESULT_STANDING);
    value("critical at", HATMUYON_RESULT_CRITICAL);
    value("severe at", HATMUYON_RESULT_SEVERE);
    value("major at", HATMUYON_RESULT_MAJOR);
    value("total at", HATMUYON_RESULT_TOTAL);
    value("critical overshoot at", HATMUYON_RESULT_CRITICAL_OVERSHOOT);
    value("severe overshoot at", HATMUYON_RESULT_SEVERE_OVERSHOOT);
    value("major overshoot at", HATMUYON_RESULT_MAJOR_OVERSHOOT);
    value("total overshoot at", HATMUYON_RESULT_TOTAL_OVERSHOOT);
    value("mold met at", HATMUYON_MOLD_RESULT_MET);
    value("mold cusum at", HATMUYON_MOLD_RESULT_CUSUM);

    value("A", HATMUYON_GRADE_A);
    value("B", HATMUYON_GRADE_B);
    value("C", HATMUYON_GRADE_C);
    value("Substandard", HATMUYON_GRADE_SUBSTANDARD);

    value("Met", HATMUYON_MET);
    value("Failed", HATMUYON_FAILED);
    value("InStepThree", HATMUYON_IN_STEP_THREE);
    value("Recovered", HATMUYON_RECOVERED);

    value("accepted", HATMUYON_ACCEPTED);
    value("NoPlan", HATMUYON_REFUSED_NO_PLAN);
    value("BadDesignatedGrade", HATMUYON_REFUSED_BAD_DESIGNATED_GRADE);
    value("PlanNumberTooLarge", HATMUYON_REFUSED_PLAN_NUMBER_TOO_LARGE);
    value("StartAboveLimit", HATMUYON_REFUSED_START_ABOVE_LIMIT);
    value("SmallerAtLowerGrade", HATMUYON_REFUSED_SMALLER_AT_LOWER_GRADE);
    value("UnknownMark", HATMUYON_REFUSED_UNKNOWN_MARK);
    value("CutShort", HATMUYON_REFUSED_CUT_SHORT);
    value("CountTooLarge", HATMUYON_REFUSED_COUNT_TOO_LARGE);
    value("BadUnitField", HATMUYON_REFUSED_BAD_UNIT_FIELD);
    value("BadNewGrade", HATMUYON_REFUSED_BAD_NEW_GRADE);
    value("SameGrade", HATMUYON_REFUSED_SAME_GRADE);
    value("TooManyUnits", HATMUYON_REFUSED_TOO_MANY_UNITS);
    value("ResultBufferTooShort", HATMUYON_REFUSED_RESULT_BUFFER_TOO_SHORT);
    value("BadSecondPlan", HATMUYON_REFUSED_BAD_SECOND_PLAN);

    value("mold NoOpening", HATMUYON_REFUSED_NO_PLAN);
    value("mold UnknownMark", HATMUYON_REFUSED_UNKNOWN_MARK);
    value("mold CutShort", HATMUYON_REFUSED_CUT_SHORT);
    value("mold TooManyUnits", HATMUYON_REFUSED_TOO_MANY_UNITS);
    value("mold ResultBufferTooShort", HATMUYON_REFUSED_RESULT_BUFFER_TOO_SHORT);
    value("mold BadLevelRow", HATMUYON_REFUSED_BAD_LEVEL_ROW);
    value("mold TooManyPositiveFields", HATMUYON_REFUSED_TOO_MANY_POSITIVE_FIELDS);

    value("found", HATMUYON_FOUND);
    value("not on this sheet", HATMUYON_NOT_ON_THIS_SHEET);
    value("look-up NotWholeRecords", HATMUYON_REFUSED_NOT_WHOLE_RECORDS);

    value("lot UnknownMark", HATMUYON_REFUSED_UNKNOWN_MARK);
    value("lot WrongLength", HATMUYON_REFUSED_CUT_SHORT);
    value("lot CountTooLarge", HATMUYON_REFUSED_COUNT_TOO_LARGE);
    value("lot BadPrerequisite", HATMUYON_REFUSED_BAD_UNIT_FIELD);
    value("lot BadSampleUnits", HATMUYON_REFUSED_BAD_SAMPLE_UNITS);
    value("lot UnlistedAql", HATMUYON_REFUSED_UNLISTED_AQL);
    value("lot FallingAql", HATMUYON_REFUSED_FALLING_AQL);
    return 0;
}
