/* Boxes on a sheet: which points of a file made in memory are released and listed, with their counts and bounds, and
 * the numbers of lines that do not pass. Prints each thing that does not hold; its last line is
 * 'N passed, M failed'. */
#include "korbishaf.h"

#include "holds.h"

enum { OFFSET = 227, RECORD = 20, MOST = 6, LENGTH = OFFSET + MOST * RECORD, CLASSIFICATION = 15 };

/* The lengths of a line for classes and of one for a box, and the class that is kept. */
enum { CLASS_LINE = 5, BOX_LINE = 27, GROUND = 2 };

/* How many boxes have room beside a line for classes. */
enum { MOST_BOXES = 63 };

/* A box, by its values in the order of a line: low X, high X, low Y, high Y, low Z, high Z. */
typedef struct {
    int32_t values[6];
} box;

static const box yard = {{-100, 100, 0, 50, -8, 8}};
static const box everywhere = {{INT32_MIN, INT32_MAX, INT32_MIN, INT32_MAX, INT32_MIN, INT32_MAX}};

/* A point, by its stored values and its classification byte. */
typedef struct {
    int32_t x, y, z;
    uint8_t classification;
} point;

/* Writes a sheet for the ground in these boxes, and gives its length. */
static uint64_t make_sheet(uint8_t *sheet, const box *boxes, int count)
{
    memcpy(sheet, "KS\1\2\2", CLASS_LINE);
    for (int i = 0; i < count; i++) {
        uint8_t *line = sheet + CLASS_LINE + BOX_LINE * i;
        memcpy(line, "KS\3", 3);
        for (int j = 0; j < 6; j++)
            put(line + 3 + 4 * j, 4, (uint32_t)boxes[i].values[j]);
    }
    return CLASS_LINE + BOX_LINE * (uint64_t)count;
}

/* Writes a file of these points, and gives its length. */
static uint64_t make_file(uint8_t *file, const point *points, int count)
{
    memset(file, 0, OFFSET);
    memcpy(file, "LASF", 4);
    put(file + 24, 2, 0x0201);
    put(file + 94, 2, OFFSET);
    put(file + 96, 4, OFFSET);
    put(file + 105, 2, RECORD);
    put(file + 107, 4, (uint64_t)count);
    for (int axis = 0; axis < 3; axis++)
        put(file + 131 + 8 * axis, 8, 0x3FE0000000000000);
    for (int i = 0; i < count; i++) {
        uint8_t *record = file + OFFSET + RECORD * i;
        memset(record, 0x15, RECORD);
        put(record, 4, (uint32_t)points[i].x);
        put(record + 4, 4, (uint32_t)points[i].y);
        put(record + 8, 4, (uint32_t)points[i].z);
        record[CLASSIFICATION] = points[i].classification;
    }
    return OFFSET + RECORD * (uint64_t)count;
}

/* The number of a sheet for the ground and a box of which so many bytes are there. Every function that takes a sheet
 * has to give it, and a refusal changes neither output nor list. */
static uint64_t number_of(box of, uint64_t bytes)
{
    uint8_t sheet[CLASS_LINE + BOX_LINE], file[OFFSET], out[OFFSET], again[OFFSET];
    las_line list = {7, 8};
    make_sheet(sheet, &of, 1);
    make_file(file, NULL, 0);
    memset(out, 0xEE, sizeof out);
    memset(again, 0xEE, sizeof again);

    const uint64_t length = CLASS_LINE + bytes, number = las_check_sheet(sheet, length);
    HOLDS(las_class_kept(sheet, length, GROUND).number == number);
    HOLDS(las_class_test(sheet, length, GROUND).number == number);
    HOLDS(las_record_kept(sheet, length, NULL, 0, 7).number == number);
    HOLDS(las_release(file, OFFSET, sheet, length, out, OFFSET).number == number);
    HOLDS(las_cutting_list(file, OFFSET, sheet, length, &list, 1).number == number);
    HOLDS(las_release_by_list(file, OFFSET, sheet, length, again, OFFSET, &list, 1).number == number);
    HOLDS(out[0] == (number == 0 ? 'L' : 0xEE) && memcmp(out, again, OFFSET) == 0);
    HOLDS(list.place == 7 && list.length == 8);
    return number;
}

/* The yard, with other values from low to high on one axis. */
static box with(int axis, int32_t low, int32_t high)
{
    box of = yard;
    of.values[2 * axis] = low;
    of.values[2 * axis + 1] = high;
    return of;
}

static void numbers(void)
{
    HOLDS(number_of(yard, BOX_LINE) == 0);
    HOLDS(number_of(everywhere, BOX_LINE) == 0);
    for (int axis = 0; axis < 3; axis++) {
        HOLDS(number_of(with(axis, 7, 7), BOX_LINE) == 0);
        HOLDS(number_of(with(axis, 8, 7), BOX_LINE) == 23);
        HOLDS(number_of(with(axis, -1, 0), BOX_LINE) == 0);
        HOLDS(number_of(with(axis, 0, -1), BOX_LINE) == 23);
        HOLDS(number_of(with(axis, INT32_MAX, INT32_MIN), BOX_LINE) == 23);
    }
    /* a box that is cut gives 22, also where a low value is above the high one */
    for (uint64_t bytes = 1; bytes < BOX_LINE; bytes++) {
        HOLDS(number_of(yard, bytes) == 22);
        HOLDS(number_of(with(0, 8, 7), bytes) == 22);
    }
    HOLDS(las_check_sheet((const uint8_t *)"KS\4", 3) == 21);
    HOLDS(las_check_sheet((const uint8_t *)"KS\0", 3) == 21);
    HOLDS(las_check_sheet((const uint8_t *)"KT\3", 3) == 20);
}

/* Whether a point by itself is kept by a sheet for the ground in these boxes: 1 or 0; -1 unless the released file has
 * just it or nothing, and the list a line for it or none. */
static int kept(point of, const box *boxes, int count)
{
    uint8_t sheet[CLASS_LINE + MOST_BOXES * BOX_LINE], file[LENGTH], out[OFFSET + RECORD];
    las_line list = {7, 8};
    const uint64_t sheet_length = make_sheet(sheet, boxes, count), length = make_file(file, &of, 1);
    memset(out, 0xEE, sizeof out);
    las_released released = las_release(file, length, sheet, sheet_length, out, sizeof out);
    las_listed listed = las_cutting_list(file, length, sheet, sheet_length, &list, 1);
    if (released.number != 0 || listed.number != 0 || listed.lines != released.points)
        return -1;
    const uint8_t nothing[RECORD] = {0};
    if (released.points == 0 && released.length == OFFSET && memcmp(out + OFFSET, nothing, RECORD) == 0)
        return list.place == 7 && list.length == 8 ? 0 : -1;
    if (released.points == 1 && released.length == length && memcmp(out + OFFSET, file + OFFSET, RECORD) == 0)
        return list.place == OFFSET && list.length == RECORD ? 1 : -1;
    return -1;
}

/* The same of ground at a place. */
static int kept_at(int32_t x, int32_t y, int32_t z, box of)
{
    const point ground = {x, y, z, GROUND};
    return kept(ground, &of, 1);
}

static void places(void)
{
    HOLDS(kept_at(0, 25, 0, yard) == 1);
    /* on a face, on an edge, on two corners */
    HOLDS(kept_at(-100, 25, 0, yard) == 1);
    HOLDS(kept_at(0, 50, 0, yard) == 1);
    HOLDS(kept_at(0, 25, -8, yard) == 1);
    HOLDS(kept_at(100, 0, 3, yard) == 1);
    HOLDS(kept_at(-100, 0, -8, yard) == 1);
    HOLDS(kept_at(100, 50, 8, yard) == 1);
    /* one beside, on each side */
    HOLDS(kept_at(-101, 25, 0, yard) == 0);
    HOLDS(kept_at(101, 25, 0, yard) == 0);
    HOLDS(kept_at(0, -1, 0, yard) == 0);
    HOLDS(kept_at(0, 51, 0, yard) == 0);
    HOLDS(kept_at(0, 25, -9, yard) == 0);
    HOLDS(kept_at(0, 25, 9, yard) == 0);
    HOLDS(kept_at(100, 50, 9, yard) == 0);
    /* the lowest and the highest value */
    HOLDS(kept_at(INT32_MIN, INT32_MAX, INT32_MIN, everywhere) == 1);
    HOLDS(kept_at(0, INT32_MIN, 0, with(1, INT32_MIN, INT32_MIN)) == 1);
    HOLDS(kept_at(0, INT32_MIN + 1, 0, with(1, INT32_MIN, INT32_MIN)) == 0);
    HOLDS(kept_at(0, INT32_MAX, 0, with(1, INT32_MIN, INT32_MIN)) == 0);
    HOLDS(kept_at(INT32_MAX, 25, 0, with(0, INT32_MAX, INT32_MAX)) == 1);
    HOLDS(kept_at(INT32_MIN, 25, 0, with(0, INT32_MAX, INT32_MAX)) == 0);
}

/* Two boxes that overlap, and one apart from them. */
static void several(void)
{
    const box boxes[3] = {{{0, 4, 0, 4, 0, 4}}, {{3, 9, 3, 9, 3, 9}}, {{20, 29, 0, 9, 0, 9}}};
    const point in_one = {0, 4, 4, GROUND}, in_both = {3, 4, 3, GROUND}, in_the_last = {29, 0, 9, GROUND};
    const point between = {15, 4, 4, GROUND}, mixed = {0, 9, 4, GROUND};

    HOLDS(kept(in_one, boxes, 3) == 1);
    HOLDS(kept(in_both, boxes, 3) == 1);
    HOLDS(kept(in_the_last, boxes, 3) == 1);
    HOLDS(kept(in_the_last, boxes, 2) == 0);
    HOLDS(kept(between, boxes, 3) == 0);
    /* each value lies in one of the boxes, but not all in the same */
    HOLDS(kept(mixed, boxes, 3) == 0);
    HOLDS(kept(mixed, boxes, 0) == 1);
}

/* As many boxes as there is room for, of which the last one keeps, and the 65th line. */
static void most_boxes(void)
{
    uint8_t sheet[CLASS_LINE + (MOST_BOXES + 1) * BOX_LINE];
    box boxes[MOST_BOXES + 1];
    const point far = {1000, 0, 0, GROUND};
    for (int i = 0; i <= MOST_BOXES; i++)
        boxes[i] = yard;
    HOLDS(kept(far, boxes, MOST_BOXES) == 0);
    boxes[MOST_BOXES - 1] = with(0, 1000, 1000);
    HOLDS(kept(far, boxes, MOST_BOXES) == 1);

    const uint64_t length = make_sheet(sheet, boxes, MOST_BOXES + 1), full = length - BOX_LINE;
    HOLDS(las_check_sheet(sheet, full) == 0);
    HOLDS(las_check_sheet(sheet, full + 1) == 24);
    HOLDS(las_check_sheet(sheet, length) == 24);
    HOLDS(las_check_sheet(sheet + CLASS_LINE, length - CLASS_LINE) == 0);
    las_class_line line = las_class_test(sheet, full, GROUND + 1);
    HOLDS(line.number == 0 && line.kept == 0 && line.lines == 64);
}

/* A box keeps nothing by itself: neither another class nor a withheld point, and nothing at all without classes. */
static void classes(void)
{
    const point ground = {0, 0, 0, GROUND}, key_point = {0, 0, 0, 66}, withheld = {0, 0, 0, 130}, other = {0, 0, 0, 3};
    uint8_t sheet[CLASS_LINE + BOX_LINE], file[LENGTH];

    HOLDS(kept(ground, &everywhere, 1) == 1);
    HOLDS(kept(key_point, &everywhere, 1) == 1);
    HOLDS(kept(withheld, &everywhere, 1) == 0);
    HOLDS(kept(other, &everywhere, 1) == 0);
    make_sheet(sheet, &everywhere, 1);
    const uint64_t length = make_file(file, &ground, 1);
    las_released alone = las_release(file, length, sheet + CLASS_LINE, BOX_LINE, NULL, 0);
    HOLDS(alone.number == 30 && alone.length == OFFSET);
}

/* A file of six points, of which the first, the third and the last go out. */
static void releases(void)
{
    const point points[MOST] = {{-100, 50, 8, GROUND}, {-101, 50, 8, GROUND}, {7, 20, -8, 66},
                                {7, 20, 9, GROUND},    {7, 20, 0, 3},         {40, 0, 0, GROUND}};
    const las_line lines[3] = {{227, 20}, {267, 20}, {327, 20}};
    const uint64_t bounds[6] = {0x4034000000000000, 0xC049000000000000, 0x4039000000000000, 0,
                                0x4010000000000000, 0xC010000000000000}; /* 20, -50, 25, 0, 4, -4 */
    uint8_t sheet[CLASS_LINE + BOX_LINE], file[LENGTH], out[LENGTH], again[LENGTH];
    las_line list[3];
    const uint64_t sheet_length = make_sheet(sheet, &yard, 1), length = make_file(file, points, MOST);

    las_released released = las_release(file, length, sheet, sheet_length, out, LENGTH);
    HOLDS(released.number == 0 && released.length == 287 && released.points == 3 && released.records == 0);
    for (int i = 0; i < 3; i++)
        HOLDS(memcmp(out + OFFSET + RECORD * i, file + lines[i].place, RECORD) == 0);
    /* of byte 0x15 the return number is 5, and coordinates are half the stored values */
    las_header header = las_read_header(out, released.length);
    HOLDS(header.number == 0 && header.point_count == 3 && header.by_return[4] == 3);
    HOLDS(memcmp(header.bounds, bounds, sizeof bounds) == 0);

    las_listed listed = las_cutting_list(file, length, sheet, sheet_length, list, 3);
    HOLDS(listed.number == 0 && listed.lines == 3 && memcmp(list, lines, sizeof lines) == 0);
    listed = las_cutting_list(file, length, sheet, sheet_length, list, 2);
    HOLDS(refusal(&listed, sizeof listed, 31));
    las_released second = las_release_by_list(file, length, sheet, sheet_length, again, LENGTH, list, 3);
    HOLDS(memcmp(&second, &released, sizeof second) == 0 && memcmp(again, out, LENGTH) == 0);
}

int main(void)
{
    numbers();
    places();
    several();
    most_boxes();
    classes();
    releases();
    return summary();
}
