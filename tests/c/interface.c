/* Holds the header's structs to the places that their fields have in the library, and calls every function once or
 * more. Prints each thing that does not hold; its last line is 'N passed, M failed'. */
#include "korbishaf.h"

#include "holds.h"

#define AT(type, field, place) HOLDS(offsetof(type, field) == (place))

static void structs(void)
{
    HOLDS(sizeof(las_released) == 32);
    AT(las_released, number, 0);
    AT(las_released, length, 8);
    AT(las_released, points, 16);
    AT(las_released, records, 24);

    HOLDS(sizeof(las_line) == 16);
    AT(las_line, place, 0);
    AT(las_line, length, 8);

    HOLDS(sizeof(las_listed) == 16);
    AT(las_listed, number, 0);
    AT(las_listed, lines, 8);

    HOLDS(sizeof(las_record) == 80);
    AT(las_record, number, 0);
    AT(las_record, user_place, 8);
    AT(las_record, user_length, 16);
    AT(las_record, record_id, 24);
    AT(las_record, description_place, 32);
    AT(las_record, description_length, 40);
    AT(las_record, payload_place, 48);
    AT(las_record, payload_length, 56);
    AT(las_record, next_index, 64);
    AT(las_record, next_position, 72);

    HOLDS(sizeof(las_point) == 56);
    AT(las_point, number, 0);
    AT(las_point, place, 8);
    AT(las_point, gps_time, 16);
    AT(las_point, x, 24);
    AT(las_point, y, 28);
    AT(las_point, z, 32);
    AT(las_point, intensity, 36);
    AT(las_point, source_id, 38);
    AT(las_point, red, 40);
    AT(las_point, green, 42);
    AT(las_point, blue, 44);
    AT(las_point, return_number, 46);
    AT(las_point, returns, 47);
    AT(las_point, classification, 48);
    AT(las_point, user_data, 49);
    AT(las_point, scan_direction, 50);
    AT(las_point, edge, 51);
    AT(las_point, scan_angle, 52);
    AT(las_point, synthetic, 53);
    AT(las_point, key_point, 54);
    AT(las_point, withheld, 55);

    HOLDS(sizeof(las_geokey) == 32);
    AT(las_geokey, number, 0);
    AT(las_geokey, location, 8);
    AT(las_geokey, value, 16);
    AT(las_geokey, length, 24);

    HOLDS(sizeof(las_geokey_read) == 40);
    AT(las_geokey_read, number, 0);
    AT(las_geokey_read, location, 8);
    AT(las_geokey_read, value, 16);
    AT(las_geokey_read, length, 24);
    AT(las_geokey_read, reads, 32);

    HOLDS(sizeof(las_kept) == 16);
    AT(las_kept, number, 0);
    AT(las_kept, kept, 8);

    HOLDS(sizeof(las_class_line) == 24);
    AT(las_class_line, number, 0);
    AT(las_class_line, kept, 8);
    AT(las_class_line, lines, 16);

    HOLDS(sizeof(las_mended) == 104);
    AT(las_mended, number, 0);
    AT(las_mended, marks, 8);

    HOLDS(sizeof(las_header) == 288);
    AT(las_header, number, 0);
    AT(las_header, file_source_id, 8);
    AT(las_header, global_encoding, 16);
    AT(las_header, guid_1, 24);
    AT(las_header, guid_2, 32);
    AT(las_header, guid_3, 40);
    AT(las_header, guid_4, 48);
    AT(las_header, major, 56);
    AT(las_header, minor, 64);
    AT(las_header, system_length, 72);
    AT(las_header, software_length, 80);
    AT(las_header, day, 88);
    AT(las_header, year, 96);
    AT(las_header, header_size, 104);
    AT(las_header, point_offset, 112);
    AT(las_header, vlr_count, 120);
    AT(las_header, point_format, 128);
    AT(las_header, record_length, 136);
    AT(las_header, point_count, 144);
    AT(las_header, by_return, 152);
    AT(las_header, scale, 192);
    AT(las_header, offset, 216);
    AT(las_header, bounds, 240);
}

/* With no bytes at all, by null pointers. */
static void nothing(void)
{
    las_header header = las_read_header(NULL, 0);
    las_record record = las_vlr_step(NULL, 0, 0, 227);
    las_geokey geokey = las_geokey_find(NULL, 0, 1024);
    las_geokey_read geokey_read = las_geokey_halve(NULL, 0, 1024);
    las_released released = las_release(NULL, 0, NULL, 0, NULL, 0);
    las_listed listed = las_cutting_list(NULL, 0, NULL, 0, NULL, 0);
    las_released by_list = las_release_by_list(NULL, 0, NULL, 0, NULL, 0, NULL, 0);
    las_mended mended = las_mend(NULL, 0);
    las_kept class_kept = las_class_kept(NULL, 0, 2);
    las_class_line class_line = las_class_test(NULL, 0, 2);
    las_kept record_kept = las_record_kept(NULL, 0, NULL, 0, 7);
    las_point point;

    HOLDS(las_check_file(NULL, 0) == 1);
    HOLDS(las_check_sheet(NULL, 0) == 0);
    HOLDS(refusal(&header, sizeof header, 1));
    HOLDS(refusal(&record, sizeof record, 1));
    HOLDS(refusal(&geokey, sizeof geokey, 1));
    HOLDS(refusal(&geokey_read, sizeof geokey_read, 1));
    HOLDS(refusal(&released, sizeof released, 1));
    HOLDS(refusal(&listed, sizeof listed, 1));
    HOLDS(refusal(&by_list, sizeof by_list, 1));
    HOLDS(refusal(&mended, sizeof mended, 1));
    HOLDS(class_kept.number == 0 && class_kept.kept == 0);
    HOLDS(class_line.number == 0 && class_line.kept == 0 && class_line.lines == 0);
    HOLDS(record_kept.number == 0 && record_kept.kept == 0);
    point = las_point_at(NULL, 0, 0);
    HOLDS(refusal(&point, sizeof point, 1));
    point = las_decode(0, 0, NULL, 0);
    HOLDS(refusal(&point, sizeof point, 12));
    HOLDS(las_encode(0, 0, point, NULL, 0) == 12);
}

/* Points in and out, every field with a value of its own. */
static void points(void)
{
    const uint8_t bytes[36] = {0xFE, 0xFF, 0xFF, 0xFF, 0x01, 0x02, 0x03, 0x04, 0x00, 0x00, 0x00, 0x80,
                               0x11, 0x12, 0x6B, 0xC8, 0x85, 0x14, 0x15, 0x16, 0x21, 0x22, 0x23, 0x24,
                               0x25, 0x26, 0x27, 0x28, 0x31, 0x32, 0x33, 0x34, 0x35, 0x36, 0xEE, 0xEE};
    uint8_t room[36];
    las_point point = las_decode(3, 36, bytes, 36);

    HOLDS(point.number == 0 && point.place == 0);
    HOLDS(point.x == -2 && point.y == 0x04030201 && point.z == INT32_MIN);
    HOLDS(point.intensity == 0x1211 && point.return_number == 3 && point.returns == 5);
    HOLDS(point.scan_direction == 1 && point.edge == 0);
    HOLDS(point.classification == 8 && point.synthetic == 0 && point.key_point == 1 && point.withheld == 1);
    HOLDS(point.scan_angle == -123 && point.user_data == 0x14);
    HOLDS(point.source_id == 0x1615 && point.gps_time == 0x2827262524232221);
    HOLDS(point.red == 0x3231 && point.green == 0x3433 && point.blue == 0x3635);

    memset(room, 0xEE, sizeof room);
    point.number = 7;
    point.place = 8;
    point.scan_direction = 0x80; /* any byte but 0 is yes */
    HOLDS(las_encode(3, 36, point, room, 36) == 0);
    HOLDS(memcmp(room, bytes, 36) == 0);
    point.x = 0;
    point.returns = 8;
    HOLDS(las_encode(3, 36, point, room, 36) == 13);
    HOLDS(las_encode(3, 36, point, room, 35) == 12);
    HOLDS(memcmp(room, bytes, 36) == 0);
}

/* Sheets, coordinates and the level. */
static void others(void)
{
    const uint8_t sheet[] = "KS\1\2\5KS\2someone\0\0\0\0\0\0\0\0\0\7\0";
    const uint64_t length = sizeof sheet - 1;
    las_kept kept = las_class_kept(sheet, length, 5);

    HOLDS(kept.number == 0 && kept.kept == 1);
    kept = las_class_kept(sheet, length, 6);
    HOLDS(kept.number == 0 && kept.kept == 0);
    kept = las_record_kept(sheet, length, (const uint8_t *)"someone\0else", 12, 7);
    HOLDS(kept.number == 0 && kept.kept == 1);
    kept = las_record_kept(sheet, length, (const uint8_t *)"someone", 7, 8);
    HOLDS(kept.number == 0 && kept.kept == 0);
    kept = las_class_kept(sheet, length - 1, 5);
    HOLDS(refusal(&kept, sizeof kept, 22));

    HOLDS(las_coordinate(-1, 0x3FE0000000000000, 0x4024000000000000) == 0x4023000000000000);
    HOLDS(las_coordinate(1, 0xFFF0000000000001, 0) == 0x7FF8000000000000);
    HOLDS(las_level() == 7);
}

int main(void)
{
    structs();
    nothing();
    points();
    others();
    return summary();
}
