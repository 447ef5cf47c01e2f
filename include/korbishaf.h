/*
 * korbishaf.h: Korbishaf for C and C++.
 *
 * Korbishaf reads LAS 1.2 files (point formats 0 to 3), mends their headers,
 * releases samples of them under a keep sheet and lists which parts go out. Link
 * with libcapi.a, which `tools/staticlib` writes to target/staticlib, or with
 * -lkorbishaf where `./install` has put it.
 *
 * Rules that hold for every function:
 *
 * - A run of bytes passes as a pointer and then its length, a uint64_t. Where
 *   the length is 0 the pointer is not looked at and may be null; otherwise it
 *   points to that many bytes.
 * - Any bytes may be passed: nothing here panics or fails to return.
 * - `out`, `room` and `list` are lent to be written to and overlap no other
 *   argument, and las_mend writes to its `file`. All else is only read.
 * - A list passes as a pointer to its lines and then their number, under the same
 *   rule: where the number is 0 the pointer may be null. It is aligned as a
 *   las_line is, to 8 bytes.
 * - `number` is 0 for an answer and otherwise says why there is none (see the
 *   table). The first check that fails is the one that is given. On a refusal
 *   every field but `number` is 0, and all that is lent is unchanged. Two things
 *   stand beside a number: with 30 the needed length, in `length`, and with 42 to
 *   46 of las_geokey_halve the entries that it read, in `reads`.
 * - Doubles pass as their 64 bits, so that every pattern survives. A result that
 *   is a NaN is 0x7ff8000000000000.
 * - Flags are bytes: 0 is no, anything else is yes; an answer has 0 or 1.
 * - Places count bytes from the front of the file.
 * - A text field's meaning is its cut: its bytes before the first zero byte, or
 *   all of them if there is none, without the spaces (0x20) at their end. A text
 *   of spaces is empty. Texts have no zero byte behind them here.
 *
 * A keep sheet has up to 64 lines, back to back. Each is the mark 4B 53, a kind
 * and a body; numbers in it have their lowest byte first:
 *
 *   kind 1  the lowest and the highest class, 1 byte each
 *   kind 2  a user ID, 16 bytes, and a record ID, 2
 *   kind 3  a box: low X, high X, low Y, high Y, low Z, high Z, stored values as
 *           those of las_point, 4 bytes each, two's complement
 *
 * A point is kept if a line of kind 1 contains its class, it is not withheld and,
 * where there are lines of kind 3, it lies in one of these boxes, edges included.
 * So boxes without a line of kind 1 keep no point. A record is kept if a line of
 * kind 2 has its user ID and record ID, whatever boxes there are.
 *
 * Numbers:
 *
 *    0  done
 *       The file, checked in this order:
 *    1  fewer than 227 bytes
 *    2  signature is not "LASF"
 *    3  version is not 1.2
 *    4  header size below 227 or above the file's length
 *    5  point format above 3
 *    6  record length below the format's size (20, 28, 26, 34 for 0, 1, 2, 3)
 *    7  point offset below the header size or above the file's length
 *    8  a counted variable length record runs past the point offset
 *    9  the points run past the file's end (never given by las_mend)
 *   10  a scale is not from 2^-40 to 2^20, or an offset not from -2^40 to 2^40
 *       (a NaN fails)
 *       Points and records:
 *   11  point index is not below the number of points
 *   12  bytes or room differ from the record length, that length is below the
 *       format's size, or the format is above 3
 *   13  a return number or number of returns above 7, or a class above 31, can't
 *       be encoded
 *   18  step: index not below the number of records, position below the header
 *       size, or a record there would run past the point offset
 *       The keep sheet, line by line:
 *   20  a line does not start with the mark 4B 53
 *   21  a line's kind is not 1, 2 or 3
 *   22  a line is cut: fewer than 3 bytes are left, or its body is not whole
 *   23  the lowest class of a line is above its highest, or a low value of its box
 *       above the high one of that axis
 *   24  a 65th line begins
 *       The release and the cutting list:
 *   30  the output is shorter than the released file (after 31)
 *   31  the list has fewer lines than there are kept records and kept points
 *       GeoKeys:
 *   40  no record "LASF_Projection" 34735, the key directory
 *   41  the key directory is under 8 bytes, does not begin 1, 1, 0, or is shorter
 *       than its keys
 *   42  the key is not found in the directory
 *   43  the key's location is not 0, 34736 or 34737
 *   44  a value at location 0 or 34736 has a count other than 1
 *   45  the parameter record that the location names is absent
 *   46  the value runs past its parameter record
 *
 * The program las_release also gives 50 (a file over 32,768 bytes) and 51 (a file
 * not opened, read or written); no function here does.
 */
#ifndef KORBISHAF_H
#define KORBISHAF_H

#include <stdint.h>

#ifdef __cplusplus
extern "C" {
#endif

/* What a release answers. */
typedef struct {
    uint64_t number;
    uint64_t length;  /* of the released file; with 30 the length that it needs */
    uint64_t points;  /* kept points */
    uint64_t records; /* kept variable length records */
} las_released;

/* A line of a cutting list: a part of the file. */
typedef struct {
    uint64_t place;
    uint64_t length;
} las_line;

/* What a cutting list answers. */
typedef struct {
    uint64_t number;
    uint64_t lines; /* kept records and kept points together */
} las_listed;

/* One variable length record: places in the file, cut lengths, and where the next step goes. */
typedef struct {
    uint64_t number;
    uint64_t user_place;
    uint64_t user_length;
    uint64_t record_id;
    uint64_t description_place;
    uint64_t description_length;
    uint64_t payload_place;
    uint64_t payload_length;
    uint64_t next_index;    /* the index plus 1 */
    uint64_t next_position; /* the place just after the record */
} las_record;

/* The fields of one point record. Those that its format lacks are 0. */
typedef struct {
    uint64_t number;
    uint64_t place;    /* of the record in the file */
    uint64_t gps_time; /* the double's 64 bits */
    int32_t x;         /* x, y, z: the stored values; see las_coordinate */
    int32_t y;
    int32_t z;
    uint16_t intensity;
    uint16_t source_id;
    uint16_t red;
    uint16_t green;
    uint16_t blue;
    uint8_t return_number;  /* 0 to 7 */
    uint8_t returns;        /* number of returns, 0 to 7 */
    uint8_t classification; /* the class, 0 to 31: bits 0 to 4 of the classification byte */
    uint8_t user_data;
    uint8_t scan_direction; /* flag */
    uint8_t edge;           /* flag */
    int8_t scan_angle;
    uint8_t synthetic; /* flag: bit 5 of the classification byte */
    uint8_t key_point; /* flag: bit 6 */
    uint8_t withheld;  /* flag: bit 7; a withheld point is never released */
} las_point;

/* The value of one GeoKey. */
typedef struct {
    uint64_t number;
    uint64_t location; /* 0, 34736 or 34737 */
    uint64_t value;    /* 0: the value; 34736: the double's 64 bits; 34737: the text's place in the file */
    uint64_t length;   /* 34737: the text's length; otherwise 0 */
} las_geokey;

/* The value of one GeoKey, found by halving, and how many entries of the key directory were read for it. */
typedef struct {
    uint64_t number;
    uint64_t location; /* location, value and length as in las_geokey */
    uint64_t value;
    uint64_t length;
    uint64_t reads; /* 0 to 13; beside 42 to 46 too, and 0 beside any other refusal */
} las_geokey_read;

/* Whether a sheet keeps something. */
typedef struct {
    uint64_t number;
    uint64_t kept; /* 0 or 1 */
} las_kept;

/* Whether a line of a sheet holds a class, and how many lines were looked at for it. */
typedef struct {
    uint64_t number;
    uint64_t kept;  /* 0 or 1 */
    uint64_t lines; /* 0 to 64: those up to and with the first line that holds the class, or all if none does */
} las_class_line;

/* What a mending answers. */
typedef struct {
    uint64_t number;
    uint64_t marks[12]; /* 1 for a field whose bytes changed, otherwise 0: number of points; points by return, 1 to 5;
                           max X, min X, max Y, min Y, max Z, min Z */
} las_mended;

/* The fields of a header, as the file states them. */
typedef struct {
    uint64_t number;
    uint64_t file_source_id;
    uint64_t global_encoding;
    uint64_t guid_1; /* bytes 8 to 11, lowest first */
    uint64_t guid_2; /* bytes 12 and 13 */
    uint64_t guid_3; /* bytes 14 and 15 */
    uint64_t guid_4; /* bytes 16 to 23, lowest first */
    uint64_t major;
    uint64_t minor;
    uint64_t system_length;   /* cut length of the system identifier, which is at 26 */
    uint64_t software_length; /* cut length of the generating software, which is at 58 */
    uint64_t day;
    uint64_t year;
    uint64_t header_size;
    uint64_t point_offset;
    uint64_t vlr_count;
    uint64_t point_format;
    uint64_t record_length;
    uint64_t point_count;
    uint64_t by_return[5]; /* points by return, 1 to 5 */
    uint64_t scale[3];     /* X, Y, Z: bits of doubles */
    uint64_t offset[3];    /* X, Y, Z: bits of doubles */
    uint64_t bounds[6];    /* max X, min X, max Y, min Y, max Z, min Z: bits of doubles */
} las_header;

/* The functions. Any pointer may be null where the length after it is 0. */

/* The number of the last change request that is in: 0 for the base, 1 with las_mend, 2 where a text's cut has no spaces
 * at its end, 3 where a class has no flags in it and withheld points are never released, 4 with las_class_test, 5 with
 * las_cutting_list and las_release_by_list, 6 with las_geokey_halve, 7 where a sheet may have boxes. */
uint64_t las_level(void);

/* 0 if the file passes, otherwise 1 to 10. */
uint64_t las_check_file(const uint8_t *file, uint64_t file_length);

/* 0 if the keep sheet passes, otherwise 20 to 24. An empty sheet is good and keeps nothing. */
uint64_t las_check_sheet(const uint8_t *sheet, uint64_t sheet_length);

/* The header's fields. Numbers: 1 to 10. */
las_header las_read_header(const uint8_t *file, uint64_t file_length);

/* One step of the walk over the variable length records: the record at `position`, and the index and
 * position for the next step. Begin with 0 and the header size; after the last record the next step
 * gives 18. Numbers: 1 to 10, 18. */
las_record las_vlr_step(const uint8_t *file, uint64_t file_length, uint64_t index, uint64_t position);

/* The point with that index, from 0, and the place of its record. Numbers: 1 to 10, 11. */
las_point las_point_at(const uint8_t *file, uint64_t file_length, uint64_t index);

/* The fields of one point record; `place` is 0. `bytes_length` has to be `record_length`; bytes beyond
 * the format's size are extra and not looked at. Numbers: 12. */
las_point las_decode(uint8_t format, uint16_t record_length, const uint8_t *bytes, uint64_t bytes_length);

/* Writes the fields to the room, which overlaps no other argument, and gives 0, or a number. `room_length` has
 * to be `record_length`; extra bytes in the room stay. Neither `number` nor `place`, nor a field that the format
 * lacks, is looked at. Numbers: 12, 13. */
uint64_t las_encode(uint8_t format, uint16_t record_length, las_point point, uint8_t *room, uint64_t room_length);

/* The coordinate's bits: stored value times scale, rounded once, plus offset, rounded once, both to
 * nearest with ties to even. Takes any bits, and gives no number. */
uint64_t las_coordinate(int32_t stored, uint64_t scale, uint64_t offset);

/* Whether a line of the sheet contains that class, from 0 to 255. It is a class by itself, with no flags in it: the
 * points of formats 0 to 3 have classes from 0 to 31, so that a line above 31 keeps none of them. Nor has it a place:
 * boxes are not looked at. Numbers: 20 to 24. */
las_kept las_class_kept(const uint8_t *sheet, uint64_t sheet_length, uint8_t classification);

/* The same question, and the number of lines that were looked at for it: the test leaves at the first line that holds
 * the class, so that where `kept` is 1, line `lines` of the sheet answered, counted from 1. A line for records and a
 * box count as any other, and never hold a class. The whole sheet is checked first. Numbers: 20 to 24. */
las_class_line las_class_test(const uint8_t *sheet, uint64_t sheet_length, uint8_t classification);

/* Whether the sheet keeps records of that user ID and record ID. The user ID has any number of bytes, and is cut as any
 * text; so are the sheet's. Numbers: 20 to 24. */
las_kept las_record_kept(const uint8_t *sheet, uint64_t sheet_length, const uint8_t *user, uint64_t user_length,
                         uint16_t record_id);

/* The value of a GeoKey, by the first key directory and the first such key in it. Numbers: 1 to 10, 40 to 46. */
las_geokey las_geokey_find(const uint8_t *file, uint64_t file_length, uint16_t key);

/* The same by halving: of n entries that are left, entry n/2 rounded down, counted from 0, is read. An equal key ends
 * the search, a larger one leaves the entries before it, a smaller one those after it, and none left is 42. Where the
 * key IDs of the directory rise strictly, the answer is that of las_geokey_find. In any other directory a key may be
 * missed, and of equal keys another than the first may be found. Numbers: 1 to 10, 40 to 46. */
las_geokey_read las_geokey_halve(const uint8_t *file, uint64_t file_length, uint16_t key);

/* Writes what the sheet keeps of the file to `out`, which overlaps no other argument, as a file of its own, and
 * zeros behind it. A line for class 2 keeps synthetic points and key points of class 2 too (a ground key point has the
 * classification byte 66); withheld points never go out, whatever the sheet says. Where the sheet has boxes, a point
 * that lies in none of them stays behind, whatever its class is; counts and bounds are of those that go out. Of a text
 * field the output has the cut, and zeros behind that. An output as long as the file is never too short; an empty one
 * asks for the needed length, by 30. Numbers: 1 to 10, 20 to 24, 30. */
las_released las_release(const uint8_t *file, uint64_t file_length, const uint8_t *sheet, uint64_t sheet_length,
                         uint8_t *out, uint64_t out_length);

/* Fills the list with the parts of the file that a release takes: a line for the payload of every kept record, and then
 * one for every kept point, in the file's order. A payload's line has its place behind the record's header, and the
 * length 0 where the payload is empty. Lines lie in the file, their places never fall, and no two overlap. Those behind
 * the last stay as they were. `list_length` counts lines; as many as the header's records and points together are
 * always enough. The list says where things stand, so it is for whoever has the file, and not for the buyer.
 * Numbers: 1 to 10, 20 to 24, 31. */
las_listed las_cutting_list(const uint8_t *file, uint64_t file_length, const uint8_t *sheet, uint64_t sheet_length,
                            las_line *list, uint64_t list_length);

/* A second, plain way to release: fills the list as las_cutting_list does, and writes from it. Where the list is long
 * enough, answer and output are those of las_release. On a refusal `out` and `list` stay as they were.
 * Numbers: 1 to 10, 20 to 24, 31, 30, in this order. */
las_released las_release_by_list(const uint8_t *file, uint64_t file_length, const uint8_t *sheet,
                                 uint64_t sheet_length, uint8_t *out, uint64_t out_length, las_line *list,
                                 uint64_t list_length);

/* Mends what the header states of the points, in the file itself, and says which of the twelve fields changed. The
 * number of points becomes the smaller of the stated number and the whole records that fit after the point offset.
 * Points by return and bounds become those of these points, withheld ones too; without points the bounds are +0.0. No
 * other byte changes. The mended file passes, and mending it again changes nothing. Where the file passed before, its
 * release under every sheet stays the same. Numbers: 1 to 8, 10. */
las_mended las_mend(uint8_t *file, uint64_t file_length);

#ifdef __cplusplus
}
#endif

#endif
