/* The class test: whether a line of a sheet holds a class, and how many lines were looked at for it. Prints each thing
 * that does not hold; its last line is 'N passed, M failed'. */
#include "korbishaf.h"

#include "holds.h"

/* Lines of a sheet: for the classes from `low` to `high`, for a record, and a box. The user ID of the record and the
 * values of the box begin with what would be a range of all classes on a line of the first kind. */
#define CLASSES(low, high) "KS\1" low high
#define RECORD "KS\2\0\377someone\0\0\0\0\0\0\0\7\0"
#define BOX "KS\3\0\377\0\0\0\377\0\0\2\2\2\2\2\2\2\2\2\2\2\2\2\2\2\2"

/* The length of a sheet that is written as a string. */
#define LENGTH(sheet) (sizeof(sheet) - 1)

enum { MOST = 512, GUARD = 16 };

/* The answer of the test on a sheet that is lent from the middle of a larger buffer. */
static las_class_line asked(const char *sheet, uint64_t length, uint8_t classification)
{
    uint8_t lent[GUARD + MOST + GUARD], before[sizeof lent];
    memset(lent, 0xEE, sizeof lent);
    memcpy(lent + GUARD, sheet, length);
    memcpy(before, lent, sizeof lent);
    las_class_line line = las_class_test(lent + GUARD, length, classification);
    HOLDS(memcmp(lent, before, sizeof lent) == 0);
    return line;
}

/* Whether line `lines`, counted from 1, is the first that holds the class. */
static int held_by(uint64_t lines, las_class_line line)
{
    return line.number == 0 && line.kept == 1 && line.lines == lines;
}

/* Whether all of so many lines were looked at, and none holds the class. */
static int held_by_none(uint64_t lines, las_class_line line)
{
    return line.number == 0 && line.kept == 0 && line.lines == lines;
}

/* Whether the sheet is refused with that number, and zeros beside it. */
static int refused(uint64_t number, las_class_line line)
{
    return refusal(&line, sizeof line, number);
}

static void places(void)
{
    static const char sheet[] = CLASSES("\2", "\5") RECORD CLASSES("\5", "\11") RECORD RECORD CLASSES("\50", "\62");
    const uint64_t length = LENGTH(sheet);

    HOLDS(held_by(1, asked(sheet, length, 2)));
    HOLDS(held_by(1, asked(sheet, length, 5)));
    HOLDS(held_by(3, asked(sheet, length, 6)));
    HOLDS(held_by(3, asked(sheet, length, 9)));
    HOLDS(held_by(6, asked(sheet, length, 40)));
    HOLDS(held_by(6, asked(sheet, length, 50)));
    HOLDS(held_by_none(6, asked(sheet, length, 0)));
    HOLDS(held_by_none(6, asked(sheet, length, 10)));
    HOLDS(held_by_none(6, asked(sheet, length, 39)));
    HOLDS(held_by_none(6, asked(sheet, length, 51)));
    HOLDS(held_by_none(6, asked(sheet, length, 255)));
}

/* A box counts as any other line, and holds no class. */
static void boxes(void)
{
    static const char sheet[] = BOX CLASSES("\2", "\5") BOX RECORD BOX CLASSES("\6", "\6") BOX;
    const uint64_t length = LENGTH(sheet);

    HOLDS(LENGTH(BOX) == 27);
    HOLDS(held_by(2, asked(sheet, length, 2)));
    HOLDS(held_by(2, asked(sheet, length, 5)));
    HOLDS(held_by(6, asked(sheet, length, 6)));
    HOLDS(held_by_none(7, asked(sheet, length, 0)));
    HOLDS(held_by_none(7, asked(sheet, length, 7)));
    HOLDS(held_by_none(7, asked(sheet, length, 255)));
    HOLDS(held_by_none(1, asked(BOX, LENGTH(BOX), 2)));
    HOLDS(held_by_none(2, asked(BOX BOX, 2 * LENGTH(BOX), 0)));
}

static void few_lines(void)
{
    HOLDS(held_by_none(0, las_class_test(NULL, 0, 2)));
    HOLDS(held_by_none(0, asked("", 0, 2)));
    HOLDS(held_by_none(1, asked(RECORD, LENGTH(RECORD), 2)));
    HOLDS(held_by(1, asked(CLASSES("\2", "\2"), 5, 2)));
    HOLDS(held_by_none(1, asked(CLASSES("\2", "\2"), 5, 66)));
    HOLDS(held_by(1, asked(CLASSES("\24", "\310"), 5, 200)));
}

/* Lines for 0 to 0, 1 to 1 and so on, so many of them. */
static void make(char *sheet, int lines)
{
    for (int i = 0; i < lines; i++) {
        memcpy(sheet + 5 * i, CLASSES("\0", "\0"), 5);
        sheet[5 * i + 3] = sheet[5 * i + 4] = (char)i;
    }
}

static void most_lines(void)
{
    char sheet[65 * 5];
    make(sheet, 65);
    for (int i = 0; i < 64; i++)
        HOLDS(held_by((uint64_t)i + 1, asked(sheet, 64 * 5, (uint8_t)i)));
    HOLDS(held_by_none(64, asked(sheet, 64 * 5, 64)));
    HOLDS(refused(24, asked(sheet, 65 * 5, 0)));
    HOLDS(refused(24, asked(sheet, 64 * 5 + 1, 0)));
}

/* The first line of each sheet holds the class, and what is behind it is good or has a fault. */
static void faults(void)
{
    static const char good[] = CLASSES("\2", "\2") CLASSES("\3", "\3");
    static const char mark[] = CLASSES("\2", "\2") "KT\1\3\3";
    static const char kind[] = CLASSES("\2", "\2") "KS\4\3\3";
    static const char reversed[] = CLASSES("\2", "\2") CLASSES("\4", "\3");
    static const char several[] = CLASSES("\2", "\2") "KS\4" CLASSES("\4", "\3") "KT\1";
    static const char boxed[] = CLASSES("\2", "\2") BOX;

    HOLDS(held_by(1, asked(good, LENGTH(good), 2)));
    HOLDS(refused(20, asked(mark, LENGTH(mark), 2)));
    HOLDS(refused(21, asked(kind, LENGTH(kind), 2)));
    HOLDS(refused(22, asked(good, LENGTH(good) - 1, 2)));
    HOLDS(refused(22, asked(good, LENGTH(good) - 3, 2)));
    HOLDS(refused(23, asked(reversed, LENGTH(reversed), 2)));
    HOLDS(held_by(1, asked(boxed, LENGTH(boxed), 2)));
    HOLDS(refused(22, asked(boxed, LENGTH(boxed) - 1, 2)));
    HOLDS(refused(21, asked(several, LENGTH(several), 2)));
    HOLDS(refused(21, asked(several, LENGTH(several), 9)));
}

int main(void)
{
    places();
    boxes();
    few_lines();
    most_lines();
    faults();
    return summary();
}
