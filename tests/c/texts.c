/* Names, descriptions and header texts that are padded with spaces, in a file made in memory: their lengths, what a
 * sheet keeps of them, a lookup by a padded name, and what a release writes. Prints each thing that does not hold; its
 * last line is 'N passed, M failed'. */
#include "korbishaf.h"

#include "holds.h"

/* Five records from 227 on, then one point. */
enum { RECORDS = 5, POINTS = 529, LENGTH = POINTS + 20 };

/* The records: place, record ID, payload length; both texts as they stand in the file, with zeros behind a shorter one;
 * and what they mean. A tab is no space. */
static const struct {
    int place, id, payload;
    char user[17], description[33];
    const char *user_cut, *description_cut;
} records[RECORDS] = {
    {227, 34735, 24, "LASF_Projection ", "                                ", "LASF_Projection", ""},
    {305, 34737, 8, "LASF_Projection", "texts of keys   \0 x", "LASF_Projection", "texts of keys"},
    {367, 7, 0, "yard            ", "A B ", "yard", "A B"},
    {421, 8, 0, "AB  \0 x", " A", "AB", " A"},
    {475, 9, 0, "                ", "A\t", "", "A\t"},
};

static uint8_t file[LENGTH];

static void make(void)
{
    const char system[33] = "scanner                         ", software[33] = " A B  \0 x";
    const uint16_t keys[12] = {1, 1, 0, 2, 1024, 0, 1, 2, 1026, 34737, 8, 0};
    memset(file, 0, sizeof file);
    memcpy(file, "LASF", 4);
    put(file + 24, 2, 0x0201);
    memcpy(file + 26, system, 32);
    memcpy(file + 58, software, 32);
    put(file + 94, 2, 227);
    put(file + 96, 4, POINTS);
    put(file + 100, 4, RECORDS);
    put(file + 105, 2, 20);
    put(file + 107, 4, 1);
    for (int axis = 0; axis < 3; axis++)
        put(file + 131 + 8 * axis, 8, 0x3FE0000000000000);
    for (int i = 0; i < RECORDS; i++) {
        uint8_t *at = file + records[i].place;
        memcpy(at + 2, records[i].user, 16);
        put(at + 18, 2, (uint64_t)records[i].id);
        put(at + 20, 2, (uint64_t)records[i].payload);
        memcpy(at + 22, records[i].description, 32);
    }
    for (int i = 0; i < 12; i++)
        put(file + 227 + 54 + 2 * i, 2, keys[i]);
    memcpy(file + 305 + 54, "WGS 84  ", 8);
    file[POINTS + 15] = 2;
}

static void lengths(void)
{
    las_header header = las_read_header(file, LENGTH);
    HOLDS(header.number == 0);
    HOLDS(header.system_length == 7);
    HOLDS(header.software_length == 4);
    for (int i = 0; i < RECORDS; i++) {
        las_record record = las_vlr_step(file, LENGTH, (uint64_t)i, (uint64_t)records[i].place);
        HOLDS(record.number == 0);
        HOLDS(record.user_length == strlen(records[i].user_cut));
        HOLDS(record.description_length == strlen(records[i].description_cut));
    }
}

/* Whether a sheet keeps that record. Its own names are "yard", "house" with spaces behind it, and spaces alone. */
static int keeps(const char *user, uint64_t length, uint16_t id)
{
    const uint8_t sheet[] = "KS\2yard\0\0\0\0\0\0\0\0\0\0\0\0\7\0"
                            "KS\2house           \10\0"
                            "KS\2                \11\0";
    las_kept kept = las_record_kept(sheet, sizeof sheet - 1, (const uint8_t *)user, length, id);
    return kept.number == 0 && kept.kept == 1;
}

static void kept_names(void)
{
    char long_name[1000];
    memset(long_name, ' ', sizeof long_name);
    memcpy(long_name, "yard", 4);

    HOLDS(keeps("yard", 4, 7));
    HOLDS(keeps("yard ", 5, 7));
    HOLDS(keeps("yard  \0 x", 9, 7));
    HOLDS(keeps(long_name, sizeof long_name, 7));
    long_name[999] = 'x';
    HOLDS(!keeps(long_name, sizeof long_name, 7));
    HOLDS(!keeps(" yard", 5, 7));
    HOLDS(!keeps("ya rd", 5, 7));
    HOLDS(!keeps("yard\t", 5, 7));
    HOLDS(!keeps("yard ", 5, 8));
    HOLDS(keeps("house", 5, 8));
    HOLDS(keeps("house ", 6, 8));
    HOLDS(!keeps("hous", 4, 8));
    HOLDS(keeps(NULL, 0, 9));
    HOLDS(keeps("  ", 2, 9));
    HOLDS(keeps(" \0x", 3, 9));
    HOLDS(!keeps(" x", 2, 9));
}

static void lookups(void)
{
    las_geokey found = las_geokey_find(file, LENGTH, 1024);
    HOLDS(found.number == 0 && found.location == 0 && found.value == 2);
    /* a key's text is payload and no text field: its spaces stay */
    found = las_geokey_find(file, LENGTH, 1026);
    HOLDS(found.number == 0 && found.location == 34737 && found.value == 359 && found.length == 8);
    memcpy(file + 305 + 2, "LASF_Projection ", 16);
    found = las_geokey_find(file, LENGTH, 1026);
    HOLDS(found.number == 0 && found.location == 34737 && found.value == 359 && found.length == 8);
    memcpy(file + 227 + 2, " LASF_Projection", 16);
    found = las_geokey_find(file, LENGTH, 1024);
    HOLDS(refusal(&found, sizeof found, 40));
}

/* Whether a field has just that text, and zeros behind it. */
static int has(const uint8_t *field, size_t width, const char *text)
{
    uint8_t wanted[32] = {0};
    memcpy(wanted, text, strlen(text));
    return memcmp(field, wanted, width) == 0;
}

/* All but the texts of keys are kept. */
static void releases(void)
{
    const uint8_t sheet[] = "KS\1\2\2"
                            "KS\2LASF_Projection\0\xAF\x87"
                            "KS\2yard \0\0\0\0\0\0\0\0\0\0\0\7\0"
                            "KS\2AB\0\0\0\0\0\0\0\0\0\0\0\0\0\0\10\0"
                            "KS\2\0\0\0\0\0\0\0\0\0\0\0\0\0\0\0\0\11\0";
    const int places[RECORDS] = {227, 0, 305, 359, 413};
    uint8_t out[LENGTH];
    las_released released = las_release(file, LENGTH, sheet, sizeof sheet - 1, out, LENGTH);

    HOLDS(released.number == 0 && released.length == 487 && released.points == 1 && released.records == 4);
    HOLDS(has(out + 26, 32, "scanner"));
    HOLDS(has(out + 58, 32, " A B"));
    for (int i = 0; i < RECORDS; i++) {
        if (places[i] == 0)
            continue;
        HOLDS(has(out + places[i] + 2, 16, records[i].user_cut));
        HOLDS(has(out + places[i] + 22, 32, records[i].description_cut));
    }
    /* payload and points are as they were */
    HOLDS(memcmp(out + 227 + 54, file + 227 + 54, 24) == 0);
    HOLDS(memcmp(out + 467, file + POINTS, 20) == 0);
}

int main(void)
{
    make();
    lengths();
    kept_names();
    releases();
    lookups();
    return summary();
}
