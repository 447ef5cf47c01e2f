/* Cutting lists, and releases that write from them, of a file made in memory: every line, what is beside a list and
 * behind its last line, refusals of each kind, and that both ways release the same. Prints each thing that does not
 * hold; its last line is 'N passed, M failed'. */
#include "korbishaf.h"

#include "holds.h"

/* Records at 230, 294 and 352, the last of them empty and ending where the points begin; four points of 30 bytes, and 7
 * bytes behind them. */
enum { HEADER = 230, RECORDS = 3, OFFSET = 406, RECORD = 30, POINTS = 4, LENGTH = OFFSET + POINTS * RECORD + 7 };

/* What the sheet keeps of it: the first record and the last, the first point and the third. */
enum { LINES = 4, RELEASED = 227 + 64 + 54 + 2 * RECORD };

static const las_line lines[LINES] = {{284, 10}, {406, 0}, {406, 30}, {466, 30}};

static const uint8_t sheet[] = "KS\1\2\2KS\2yard\0\0\0\0\0\0\0\0\0\0\0\0\7\0";
static const uint64_t sheet_length = sizeof sheet - 1;

static uint8_t file[LENGTH];

static void record(int place, uint16_t id, uint16_t payload)
{
    memcpy(file + place + 2, "yard\0 tail", 10);
    put(file + place + 18, 2, id);
    put(file + place + 20, 2, payload);
}

static void make(void)
{
    /* a key point of class 2 is kept, and one that is withheld is not */
    const uint8_t classes[POINTS] = {2, 3, 0x42, 0x82};
    for (int i = 0; i < LENGTH; i++)
        file[i] = (uint8_t)(i * 7 + 1);
    memcpy(file, "LASF", 4);
    put(file + 24, 2, 0x0201);
    put(file + 94, 2, HEADER);
    put(file + 96, 4, OFFSET);
    put(file + 100, 4, RECORDS);
    put(file + 104, 1, 1);
    put(file + 105, 2, RECORD);
    put(file + 107, 4, POINTS);
    for (int i = 0; i < 6; i++)
        put(file + 131 + 8 * i, 8, 0x3FE0000000000000);
    record(230, 7, 10);
    record(294, 8, 4);
    record(352, 7, 0);
    for (int i = 0; i < POINTS; i++)
        file[OFFSET + RECORD * i + 15] = classes[i];
}

/* A list and an output stand between guards. All of it has bytes of its own before a call. */
enum { GUARD = 2, MOST = 9, GUARD_BYTES = 16, ROOM = 500 };
static las_line around[GUARD + MOST + GUARD], around_before[GUARD + MOST + GUARD];
static uint8_t room[GUARD_BYTES + ROOM + GUARD_BYTES], room_before[GUARD_BYTES + ROOM + GUARD_BYTES];

static las_line *const list = around + GUARD;
static uint8_t *const out = room + GUARD_BYTES;

static void fill(void)
{
    for (uint64_t i = 0; i < GUARD + MOST + GUARD; i++) {
        around[i].place = UINT64_MAX - i;
        around[i].length = 1000 + i;
    }
    memset(room, 0xEE, sizeof room);
    memcpy(around_before, around, sizeof around);
    memcpy(room_before, room, sizeof room);
}

/* Whether nothing changed in a list, but for so many lines at its front, which are those of the file. */
static int has_lines(int count)
{
    memcpy(around_before + GUARD, lines, (size_t)count * sizeof *lines);
    return memcmp(around, around_before, sizeof around) == 0;
}

/* Whether nothing changed in the output. */
static int output_stays(void)
{
    return memcmp(room, room_before, sizeof room) == 0;
}

/* Whether a list of so many lines is long enough, and filled. */
static int lists(uint64_t length)
{
    fill();
    las_listed listed = las_cutting_list(file, LENGTH, sheet, sheet_length, list, length);
    return listed.number == 0 && listed.lines == LINES && has_lines(LINES);
}

/* Whether it is refused with that number, and stays as it was. */
static int refuses(uint64_t number, uint64_t length, uint64_t file_length, uint64_t of_sheet)
{
    fill();
    las_listed listed = las_cutting_list(file, file_length, sheet, of_sheet, list, length);
    return refusal(&listed, sizeof listed, number) && has_lines(0);
}

static void cutting_lists(void)
{
    uint8_t file_before[LENGTH];
    memcpy(file_before, file, LENGTH);

    for (uint64_t length = LINES; length <= MOST; length++)
        HOLDS(lists(length));
    for (uint64_t length = 0; length < LINES; length++)
        HOLDS(refuses(31, length, LENGTH, sheet_length));
    HOLDS(refuses(1, 0, 226, 2));
    HOLDS(refuses(9, 0, LENGTH - 8, 2));
    HOLDS(refuses(22, 0, LENGTH, 2));
    HOLDS(refuses(22, MOST, LENGTH, sheet_length - 1));
    HOLDS(memcmp(file, file_before, LENGTH) == 0);

    las_listed listed = las_cutting_list(file, LENGTH, sheet, sheet_length, NULL, 0);
    HOLDS(refusal(&listed, sizeof listed, 31));
}

/* Without a sheet nothing is kept, and a list needs no line. */
static void nothing_kept(void)
{
    fill();
    las_listed listed = las_cutting_list(file, LENGTH, NULL, 0, NULL, 0);
    HOLDS(listed.number == 0 && listed.lines == 0);
    listed = las_cutting_list(file, LENGTH, NULL, 0, list, 3);
    HOLDS(listed.number == 0 && listed.lines == 0 && has_lines(0));

    las_released released = las_release_by_list(file, LENGTH, NULL, 0, out, 226, NULL, 0);
    HOLDS(released.number == 30 && released.length == 227 && output_stays());
    released = las_release_by_list(file, LENGTH, NULL, 0, out, 227, NULL, 0);
    HOLDS(released.number == 0 && released.length == 227 && released.points == 0 && released.records == 0);
    las_release(file, LENGTH, NULL, 0, room_before + GUARD_BYTES, 227);
    HOLDS(output_stays());
}

/* Releases by a list of so many lines into an output of so many bytes. Whether answer, output and all around it are
 * those of las_release, and the list is filled where it is accepted. */
static int releases_alike(uint64_t length, uint64_t room_length)
{
    fill();
    las_released first = las_release(file, LENGTH, sheet, sheet_length, room_before + GUARD_BYTES, room_length);
    las_released second = las_release_by_list(file, LENGTH, sheet, sheet_length, out, room_length, list, length);
    return memcmp(&first, &second, sizeof first) == 0 && output_stays() && has_lines(first.number == 0 ? LINES : 0);
}

static void both_ways(void)
{
    for (uint64_t length = LINES; length <= MOST; length++) {
        HOLDS(releases_alike(length, RELEASED));
        HOLDS(releases_alike(length, RELEASED + 1));
        HOLDS(releases_alike(length, ROOM));
        HOLDS(releases_alike(length, RELEASED - 1));
        HOLDS(releases_alike(length, 0));
    }
    fill();
    las_released released = las_release_by_list(file, LENGTH, sheet, sheet_length, out, ROOM, list, LINES);
    HOLDS(released.number == 0 && released.length == RELEASED && released.points == 2 && released.records == 2);
    /* what the lines name stands in the output */
    HOLDS(memcmp(out + 227 + 54, file + lines[0].place, 10) == 0);
    HOLDS(memcmp(out + RELEASED - 2 * RECORD, file + lines[2].place, RECORD) == 0);
    HOLDS(memcmp(out + RELEASED - RECORD, file + lines[3].place, RECORD) == 0);
}

/* Whether a release by a list is refused with that number and length, and changes nothing. */
static int not_released(uint64_t number, uint64_t needed, uint64_t length, uint64_t room_length, uint64_t of_sheet)
{
    fill();
    las_released released = las_release_by_list(file, LENGTH, sheet, of_sheet, out, room_length, list, length);
    const las_released wanted = {number, needed, 0, 0};
    return memcmp(&released, &wanted, sizeof wanted) == 0 && output_stays() && has_lines(0);
}

/* The file's numbers, then the sheet's, then 31, then 30. */
static void order(void)
{
    HOLDS(not_released(30, RELEASED, LINES, RELEASED - 1, sheet_length));
    HOLDS(not_released(30, RELEASED, MOST, 0, sheet_length));
    HOLDS(not_released(31, 0, LINES - 1, RELEASED, sheet_length));
    HOLDS(not_released(31, 0, LINES - 1, RELEASED - 1, sheet_length));
    HOLDS(not_released(31, 0, 0, 0, sheet_length));
    HOLDS(not_released(22, 0, 0, 0, sheet_length - 1));
    HOLDS(not_released(22, 0, LINES, ROOM, sheet_length - 1));
    file[104] = 4;
    HOLDS(not_released(5, 0, 0, 0, sheet_length - 1));
    HOLDS(not_released(5, 0, LINES, ROOM, sheet_length));
    make();
    las_released released = las_release_by_list(file, LENGTH, sheet, sheet_length, NULL, 0, NULL, 0);
    HOLDS(refusal(&released, sizeof released, 31));
}

int main(void)
{
    make();
    cutting_lists();
    nothing_kept();
    both_ways();
    order();
    return summary();
}
