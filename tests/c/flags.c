/* The flags of a classification byte, apart from the class: points read and written, classes on a sheet, and which
 * points of a file made in memory are released, or counted by a mending. Prints each thing that does not hold; its last
 * line is 'N passed, M failed'. */
#include "korbishaf.h"

#include "holds.h"

/* Three points of 20 bytes from 227 on: ground, a key point on the ground, and withheld ground. */
enum { POINTS = 3, OFFSET = 227, RECORD = 20, LENGTH = OFFSET + POINTS * RECORD, CLASSIFICATION = 15 };

static const uint8_t bytes_of_points[POINTS] = {2, 66, 130};

/* A point record with this classification byte; all its other bytes are 0x15. */
static void record(uint8_t *at, uint8_t byte)
{
    memset(at, 0x15, RECORD);
    at[CLASSIFICATION] = byte;
}

static void make(uint8_t *file)
{
    memset(file, 0, LENGTH);
    memcpy(file, "LASF", 4);
    put(file + 24, 2, 0x0201);
    put(file + 94, 2, OFFSET);
    put(file + 96, 4, OFFSET);
    put(file + 105, 2, RECORD);
    put(file + 107, 4, POINTS);
    for (int axis = 0; axis < 3; axis++)
        put(file + 131 + 8 * axis, 8, 0x3FE0000000000000);
    for (int i = 0; i < POINTS; i++)
        record(file + OFFSET + RECORD * i, bytes_of_points[i]);
}

/* Whether a point has that class and these flags. */
static int has(las_point point, int classification, int synthetic, int key_point, int withheld)
{
    return point.number == 0 && point.classification == classification && point.synthetic == synthetic &&
           point.key_point == key_point && point.withheld == withheld;
}

static las_point decoded(uint8_t byte)
{
    uint8_t bytes[RECORD];
    record(bytes, byte);
    return las_decode(0, RECORD, bytes, RECORD);
}

static void reads(void)
{
    uint8_t bytes[RECORD];
    las_point point;

    HOLDS(has(decoded(0), 0, 0, 0, 0));
    HOLDS(has(decoded(2), 2, 0, 0, 0));
    HOLDS(has(decoded(31), 31, 0, 0, 0));
    HOLDS(has(decoded(32), 0, 1, 0, 0));
    HOLDS(has(decoded(64), 0, 0, 1, 0));
    HOLDS(has(decoded(66), 2, 0, 1, 0));
    HOLDS(has(decoded(128), 0, 0, 0, 1));
    HOLDS(has(decoded(0xE2), 2, 1, 1, 1));
    HOLDS(has(decoded(255), 31, 1, 1, 1));
    record(bytes, 255);
    point = las_decode(0, RECORD, bytes, RECORD - 1);
    HOLDS(refusal(&point, sizeof point, 12));
}

/* Whether encoding gives that number, and makes of a record with the classification byte `before` one with `wanted`. */
static int encodes(las_point point, uint64_t number, uint8_t before, uint8_t wanted)
{
    uint8_t room[RECORD], due[RECORD];
    record(room, before);
    record(due, wanted);
    return las_encode(0, RECORD, point, room, RECORD) == number && memcmp(room, due, RECORD) == 0;
}

/* A point with that class and these flags, of which any byte but 0 is a yes. */
static las_point with(uint8_t classification, uint8_t synthetic, uint8_t key_point, uint8_t withheld)
{
    las_point point = decoded(0);
    point.classification = classification;
    point.synthetic = synthetic;
    point.key_point = key_point;
    point.withheld = withheld;
    return point;
}

static void writes(void)
{
    las_point large = with(31, 0, 0, 0);
    uint8_t room[RECORD];

    HOLDS(encodes(with(2, 0, 1, 0), 0, 0xEE, 66));
    HOLDS(encodes(with(2, 2, 0, 0), 0, 0xEE, 34));
    HOLDS(encodes(with(2, 0, 0xFF, 0), 0, 0xEE, 66));
    HOLDS(encodes(with(2, 0, 0, 0x80), 0, 0xEE, 130));
    HOLDS(encodes(with(2, 2, 0xFF, 0x80), 0, 0xEE, 0xE2));
    HOLDS(encodes(with(31, 0, 0, 0), 0, 0xEE, 31));
    HOLDS(encodes(with(31, 0xFF, 0xFF, 0xFF), 0, 0, 255));
    HOLDS(encodes(with(32, 0, 0, 0), 13, 0xEE, 0xEE));
    HOLDS(encodes(with(66, 0, 0, 0), 13, 0xEE, 0xEE));
    HOLDS(encodes(with(255, 1, 1, 1), 13, 0xEE, 0xEE));
    HOLDS(las_encode(0, RECORD, with(32, 0, 0, 0), room, RECORD - 1) == 12);
    large.returns = 8;
    HOLDS(encodes(large, 13, 0xEE, 0xEE));
    large.classification = 32;
    HOLDS(encodes(large, 13, 0xEE, 0xEE));
}

/* Whether a line from `low` to `high` holds that class, which has no flags in it. */
static int holds_class(uint8_t low, uint8_t high, uint8_t classification)
{
    const uint8_t sheet[5] = {0x4B, 0x53, 1, low, high};
    las_kept kept = las_class_kept(sheet, sizeof sheet, classification);
    return kept.number == 0 && kept.kept == 1;
}

static void classes(void)
{
    HOLDS(holds_class(2, 2, 2));
    HOLDS(!holds_class(2, 2, 66));
    HOLDS(holds_class(40, 50, 40));
    HOLDS(!holds_class(40, 50, 8));
    HOLDS(holds_class(20, 200, 200));
}

/* How many of the three points a sheet from `low` to `high` keeps; -1 unless the released file has just the first so
 * many, and zeros stand behind it. */
static int released(uint8_t low, uint8_t high)
{
    const uint8_t sheet[5] = {0x4B, 0x53, 1, low, high};
    uint8_t file[LENGTH], out[LENGTH];
    make(file);
    memset(out, 0xEE, sizeof out);
    las_released answer = las_release(file, LENGTH, sheet, sizeof sheet, out, LENGTH);
    size_t size = RECORD * (size_t)answer.points;
    int good = answer.number == 0 && answer.points <= POINTS && answer.length == OFFSET + size && answer.records == 0;
    good = good && memcmp(out + OFFSET, file + OFFSET, size) == 0;
    for (size_t i = OFFSET + size; i < LENGTH; i++)
        good = good && out[i] == 0;
    return good ? (int)answer.points : -1;
}

static void releases(void)
{
    HOLDS(released(2, 2) == 2);
    HOLDS(released(0, 255) == 2);
    HOLDS(released(2, 66) == 2);
    HOLDS(released(3, 255) == 0);
    HOLDS(released(66, 66) == 0);
    HOLDS(released(130, 130) == 0);
}

/* A mending counts them all. */
static void mends(void)
{
    uint8_t file[LENGTH];
    make(file);
    put(file + 107, 4, 9);
    las_mended mended = las_mend(file, LENGTH);
    las_header header = las_read_header(file, LENGTH);
    HOLDS(mended.number == 0 && mended.marks[0] == 1);
    /* of byte 0x15 the return number is 5 */
    HOLDS(header.point_count == POINTS && header.by_return[4] == POINTS);
}

int main(void)
{
    HOLDS(las_level() == 7);
    reads();
    writes();
    classes();
    releases();
    mends();
    return summary();
}
