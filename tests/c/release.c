/* Makes a small file in memory, checks it, reads its header, releases the points of class 2, and prints one line. */
#include "korbishaf.h"

#include <inttypes.h>
#include <stdio.h>
#include <string.h>

static void put(uint8_t *at, int width, uint64_t number)
{
    for (int i = 0; i < width; i++)
        at[i] = (uint8_t)(number >> (8 * i));
}

int main(void)
{
    const uint8_t sheet[] = {0x4B, 0x53, 1, 2, 2};
    const uint64_t half = 0x3FE0000000000000, ten = 0x4024000000000000;
    uint8_t file[227 + 2 * 20] = {0}, out[300];

    memcpy(file, "LASF", 4);
    put(file + 24, 1, 1); /* version 1.2 */
    put(file + 25, 1, 2);
    memcpy(file + 26, "a system", 8);
    put(file + 94, 2, 227); /* header size */
    put(file + 96, 4, 227); /* offset to points */
    put(file + 105, 2, 20); /* record length, of point format 0 */
    put(file + 107, 4, 2); /* number of points */
    for (int axis = 0; axis < 3; axis++) {
        put(file + 131 + 8 * axis, 8, half);
        put(file + 155 + 8 * axis, 8, ten);
    }
    put(file + 227 + 15, 1, 6); /* the first point: class 6 */
    put(file + 247, 4, 0xFFFFFFFF); /* the second: X -1, class 2 */
    put(file + 247 + 15, 1, 2);

    uint64_t check = las_check_file(file, sizeof file);
    las_header header = las_read_header(file, sizeof file);
    las_released asked = las_release(file, sizeof file, sheet, sizeof sheet, NULL, 0);
    las_released released = las_release(file, sizeof file, sheet, sizeof sheet, out, sizeof out);
    las_header again = las_read_header(out, released.length);
    printf("check %" PRIu64 " points %" PRIu64 " system %.*s asked %" PRIu64 " %" PRIu64
           " released %" PRIu64 " %" PRIu64 " points %" PRIu64 " records %" PRIu64 " max X %016" PRIx64 "\n",
           check, header.point_count, (int)header.system_length, (const char *)file + 26, asked.number, asked.length,
           released.number, released.length, released.points, released.records, again.bounds[0]);
    return 0;
}
