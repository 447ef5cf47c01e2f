/* The GeoKey lookup by halving: the value of a key, and how many entries of the directory were read for it. Prints each
 * thing that does not hold; its last line is 'N passed, M failed'. */
#include "korbishaf.h"

#include "holds.h"

/* A directory from 227 on, and room for two parameter records and a point behind the longest. */
enum { DIRECTORY = 227, HEAD = 54, MOST_KEYS = 8190, ROOM = DIRECTORY + HEAD + 8 + 8 * MOST_KEYS + 256, GUARD = 16 };

static uint8_t lent[GUARD + ROOM + GUARD], before[sizeof lent];
static uint8_t *const file = lent + GUARD;
static uint64_t length;

/* Seven keys, their locations, counts and value offsets: two doubles and a text of ten bytes are there. */
static const uint16_t seven[7][4] = {
    {10, 0, 1, 1001}, {20, 34736, 1, 1}, {30, 34737, 4, 3}, {40, 0, 1, 65535},
    {50, 34767, 1, 0}, {60, 0, 2, 0}, {70, 34736, 1, 2},
};

/* Puts a record's header at the end of what is there, and gives the place of its payload. */
static uint8_t *record(int id, size_t payload)
{
    uint8_t *at = file + length;
    memset(at, 0, HEAD + payload);
    memcpy(at + 2, "LASF_Projection", 15);
    put(at + 18, 2, (uint64_t)id);
    put(at + 20, 2, payload);
    length += HEAD + payload;
    put(file + 100, 4, file[100] + 1u);
    return at + HEAD;
}

/* A header and a directory of so many keys, all 0 yet; gives the place of the first entry. */
static uint8_t *start(int keys)
{
    memset(lent, 0xEE, sizeof lent);
    memset(file, 0, 227);
    memcpy(file, "LASF", 4);
    put(file + 24, 2, 0x0201);
    put(file + 94, 2, 227);
    put(file + 105, 2, 20);
    put(file + 107, 4, 1);
    for (int axis = 0; axis < 3; axis++)
        put(file + 131 + 8 * axis, 8, 0x3FE0000000000000);
    length = DIRECTORY;
    uint8_t *directory = record(34735, 8 + 8 * (size_t)keys);
    put(directory, 8, 0x0000000000010001);
    put(directory + 6, 2, (uint64_t)keys);
    return directory + 8;
}

/* The point, behind all records. */
static void finish(void)
{
    put(file + 96, 4, length);
    memset(file + length, 2, 20);
    length += 20;
}

/* The file with the seven keys and, unless they are left out, the parameter records. */
static void make(int parameters)
{
    uint8_t *entries = start(7);
    for (int i = 0; i < 7; i++)
        for (int j = 0; j < 4; j++)
            put(entries + 8 * i + 2 * j, 2, seven[i][j]);
    if (parameters) {
        uint8_t *doubles = record(34736, 16);
        put(doubles, 8, 0x4024000000000000);
        put(doubles + 8, 8, 0x3FE0000000000000);
        memcpy(record(34737, 10), "one two 84", 10);
    }
    finish();
}

/* The answer for a key; the file and what is around it stay as they were. */
static las_geokey_read asked(uint16_t key)
{
    memcpy(before, lent, sizeof lent);
    las_geokey_read answer = las_geokey_halve(file, length, key);
    HOLDS(memcmp(lent, before, sizeof lent) == 0);
    return answer;
}

/* Whether a value was found by so many reads. */
static int found(las_geokey_read answer, uint64_t location, uint64_t value, uint64_t text, uint64_t reads)
{
    return answer.number == 0 && answer.location == location && answer.value == value && answer.length == text
           && answer.reads == reads;
}

/* Whether the key is refused with that number after so many reads, and zeros for the rest. */
static int refused(uint64_t number, uint64_t reads, las_geokey_read answer)
{
    int right = answer.reads == reads;
    answer.reads = 0;
    return right && refusal(&answer, sizeof answer, number);
}

static void values(void)
{
    const uint64_t texts = DIRECTORY + HEAD + 64 + HEAD + 16 + HEAD;
    make(1);
    HOLDS(las_check_file(file, length) == 0);
    HOLDS(found(asked(10), 0, 1001, 0, 3));
    HOLDS(found(asked(20), 34736, 0x3FE0000000000000, 0, 2));
    HOLDS(found(asked(30), 34737, texts + 3, 4, 3));
    HOLDS(found(asked(40), 0, 65535, 0, 1));
}

/* Where keys rise, the answer is that of the plain lookup. */
static void as_the_plain_lookup(void)
{
    make(1);
    for (int key = 0; key < 90; key++) {
        las_geokey plain = las_geokey_find(file, length, (uint16_t)key);
        las_geokey_read answer = asked((uint16_t)key);
        HOLDS(answer.number == plain.number && answer.location == plain.location);
        HOLDS(answer.value == plain.value && answer.length == plain.length);
        HOLDS(answer.reads >= 1 && answer.reads <= 3);
    }
}

/* 42 to 46, with the entries read. */
static void entries_refused(void)
{
    make(1);
    HOLDS(refused(42, 3, asked(5)));
    HOLDS(refused(42, 3, asked(45)));
    HOLDS(refused(42, 3, asked(75)));
    HOLDS(refused(43, 3, asked(50)));
    HOLDS(refused(44, 2, asked(60)));
    HOLDS(refused(46, 3, asked(70)));
    make(0);
    HOLDS(refused(45, 2, asked(20)));
    HOLDS(refused(45, 3, asked(30)));
    HOLDS(found(asked(40), 0, 65535, 0, 1));
    put(file + DIRECTORY + HEAD + 6, 2, 0);
    HOLDS(refused(42, 0, asked(40)));
}

/* 1, 2, 9, 40 and 41, with no entry read. */
static void files_refused(void)
{
    make(1);
    put(file + DIRECTORY + HEAD + 6, 2, 8); /* one key more than are there */
    HOLDS(refused(41, 0, asked(40)));
    make(1);
    put(file + DIRECTORY + HEAD, 2, 2);
    HOLDS(refused(41, 0, asked(40)));
    make(1);
    file[DIRECTORY + 2] = 'l';
    HOLDS(refused(40, 0, asked(40)));
    make(1);
    length--;
    HOLDS(refused(9, 0, asked(40)));
    file[0] = 'l';
    HOLDS(refused(2, 0, asked(40)));
    length = 226;
    HOLDS(refused(1, 0, asked(40)));
    HOLDS(refused(1, 0, las_geokey_halve(NULL, 0, 40)));
}

/* A directory of these keys alone; the value of each is its place, counted from 0. */
static void make_of(int keys, const uint16_t *key)
{
    uint8_t *entries = start(keys);
    for (int i = 0; i < keys; i++) {
        put(entries + 8 * i, 2, key[i]);
        put(entries + 8 * i + 4, 2, 1);
        put(entries + 8 * i + 6, 2, (uint64_t)i);
    }
    finish();
}

/* Keys that do not rise: one may be missed, and of equal keys another than the first may be found. */
static void no_order(void)
{
    const uint16_t falling[3] = {30, 20, 10}, twice[2] = {20, 20};
    make_of(3, falling);
    HOLDS(las_geokey_find(file, length, 30).number == 0);
    HOLDS(refused(42, 2, asked(30)));
    HOLDS(found(asked(20), 0, 1, 0, 1));
    HOLDS(las_geokey_find(file, length, 10).number == 0);
    HOLDS(refused(42, 2, asked(10)));
    make_of(2, twice);
    HOLDS(las_geokey_find(file, length, 20).value == 0);
    HOLDS(found(asked(20), 0, 1, 0, 1));
}

/* The most keys that a record has room for: 13 reads at most. */
static void most_keys(void)
{
    static uint16_t odd[MOST_KEYS];
    for (int i = 0; i < MOST_KEYS; i++)
        odd[i] = (uint16_t)(2 * i + 1);
    make_of(MOST_KEYS, odd);
    HOLDS(found(asked(1), 0, 0, 0, 13));
    HOLDS(found(asked(8191), 0, 4095, 0, 1));
    HOLDS(found(asked(16379), 0, 8189, 0, 12));
    HOLDS(refused(42, 13, asked(0)));
    HOLDS(refused(42, 13, asked(2)));
    HOLDS(refused(42, 12, asked(16380)));
    HOLDS(refused(42, 12, asked(65535)));
}

int main(void)
{
    values();
    as_the_plain_lookup();
    entries_refused();
    files_refused();
    no_order();
    most_keys();
    return summary();
}
