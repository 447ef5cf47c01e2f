/* Mends files made in memory, and holds every byte, every mark and every refusal to what was worked out by hand. Prints
 * each thing that does not hold; its last line is 'N passed, M failed'. */
#include "korbishaf.h"

#include "holds.h"

/* Three points of 22 bytes from 232 on, and 5 bytes of a fourth. */
enum { OFFSET = 232, RECORD = 22, LENGTH = OFFSET + 3 * RECORD + 5, GUARD = 16, MARKS = 12 };

/* The twelve fields: place and width. */
static const int fields[MARKS][2] = {{107, 4}, {111, 4}, {115, 4}, {119, 4}, {123, 4}, {127, 4},
                                     {179, 8}, {187, 8}, {195, 8}, {203, 8}, {211, 8}, {219, 8}};

/* What belongs there: 3 points, one each of return 1 and 2; X from 7 to 9.5, Y from -22 to -19, Z from 100 to 200. */
static const uint64_t right[MARKS] = {3, 1, 1, 0, 0, 0, 0x4023000000000000, 0x401C000000000000, 0xC033000000000000,
                                      0xC036000000000000, 0x4069000000000000, 0x4059000000000000};

/* The file at hand stands between guards. */
static uint8_t around[GUARD + LENGTH + GUARD];
static uint8_t *const file = around + GUARD;

static void set(const uint64_t values[MARKS])
{
    for (int i = 0; i < MARKS; i++)
        put(file + fields[i][0], fields[i][1], values[i]);
}

static void point(int index, int32_t x, int32_t y, int32_t z, uint8_t returns)
{
    uint8_t *at = file + OFFSET + RECORD * index;
    put(at, 4, (uint32_t)x);
    put(at + 4, 4, (uint32_t)y);
    put(at + 8, 4, (uint32_t)z);
    at[14] = returns;
}

/* The file with a right header. What no field speaks of has a byte of its own. */
static void make(void)
{
    const uint64_t scaling[6] = {0x3FE0000000000000, 0x3FD0000000000000, 0x4000000000000000,  /* 0.5, 0.25, 2 */
                                 0x4024000000000000, 0xC034000000000000, 0};                  /* 10, -20, 0 */
    memset(around, 0xA5, sizeof around);
    memcpy(file, "LASF", 4);
    put(file + 24, 2, 0x0201);
    put(file + 94, 2, 230);
    put(file + 96, 4, OFFSET);
    put(file + 100, 4, 0);
    put(file + 104, 1, 0);
    put(file + 105, 2, RECORD);
    for (int i = 0; i < 6; i++)
        put(file + 131 + 8 * i, 8, scaling[i]);
    set(right);
    /* the number of returns is another one than the return number; 7 is in no bin */
    point(0, -6, 4, 100, 0x31);
    point(1, -2, -8, 50, 0x1A);
    point(2, -1, 0, 70, 0x1F);
}

/* Mends the file at hand. Whether it is then as `wanted`, the guards too, and `marked` says of each field whether its
 * mark is 1. */
static int mends(const uint8_t *wanted, unsigned marked)
{
    las_mended mended = las_mend(file, LENGTH);
    int good = mended.number == 0 && memcmp(around, wanted, sizeof around) == 0;
    for (int i = 0; i < MARKS; i++)
        good = good && mended.marks[i] == (marked >> i & 1);
    return good;
}

/* A header that lies in every field, cut in the middle of a point; then one that lies in one field. */
static void lies(void)
{
    uint8_t wanted[sizeof around];
    make();
    memcpy(wanted, around, sizeof around);
    HOLDS(mends(wanted, 0));
    for (int i = 0; i < MARKS; i++)
        put(file + fields[i][0], fields[i][1], UINT64_MAX); /* 2^32 - 1, or a NaN */
    HOLDS(las_check_file(file, LENGTH) == 9);
    HOLDS(mends(wanted, 0xFFF));
    HOLDS(las_check_file(file, LENGTH) == 0);
    HOLDS(mends(wanted, 0));
    for (int i = 0; i < MARKS; i++) {
        file[fields[i][0] + fields[i][1] - 1] ^= 0x80;
        HOLDS(mends(wanted, 1u << i));
    }
}

/* A number that is too small stays, and the third point does not count. */
static void fewer(void)
{
    uint8_t wanted[sizeof around];
    make();
    put(file + 107, 4, 2);
    memcpy(wanted, around, sizeof around);
    put(wanted + GUARD + 179, 8, 0x4022000000000000); /* max X 9 */
    HOLDS(mends(wanted, 1u << 6));
}

/* Without points the bounds are +0.0, which -0.0 is not. */
static void none(void)
{
    const uint64_t values[MARKS] = {0, 0, 0, 7, 0, 0, 0x8000000000000000, 0, 0x7FF8000000000000, 0, 0, 1};
    const uint64_t zeros[MARKS] = {0};
    uint8_t wanted[sizeof around];
    make();
    set(zeros);
    memcpy(wanted, around, sizeof around);
    set(values);
    HOLDS(mends(wanted, 1u << 3 | 1u << 6 | 1u << 8 | 1u << 11));
}

/* Whether the file with `byte` at `place` is refused with that number, and nothing changes. */
static int refuses(int place, uint8_t byte, uint64_t length, uint64_t number)
{
    uint8_t before[sizeof around];
    make();
    put(file + 107, 4, 9); /* 9 would be given before 10, and is not given here */
    file[place] = byte;
    memcpy(before, around, sizeof around);
    las_mended mended = las_mend(file, length);
    return refusal(&mended, sizeof mended, number) && memcmp(around, before, sizeof around) == 0;
}

int main(void)
{
    lies();
    fewer();
    none();
    HOLDS(refuses(0, 'L', 226, 1));
    HOLDS(refuses(3, 'f', LENGTH, 2));
    HOLDS(refuses(25, 4, LENGTH, 3));
    HOLDS(refuses(94, 226, LENGTH, 4));
    HOLDS(refuses(104, 4, LENGTH, 5));
    HOLDS(refuses(105, 19, LENGTH, 6));
    HOLDS(refuses(96, 229, LENGTH, 7));
    HOLDS(refuses(96, 232, 231, 7));
    HOLDS(refuses(100, 1, LENGTH, 8));
    HOLDS(refuses(138, 0xBF, LENGTH, 10));
    return summary();
}
