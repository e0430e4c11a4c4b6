/* Cadzvigu: nearest marked cells and exact distances on 3-D grids, for C and C++.
 *
 * A grid has nx * ny * nz cells. The cell at the place (x, y, z), each counted from 0, has the number
 *
 *     x + nx * (y + ny * z)
 *
 * and every array has one entry for each cell, in the order of these numbers: x runs fastest.
 *
 * Link libcadzvigu.a, which capi/build.sh writes, and beside it liblibc_c.a of the Rattle kit; or build both into a shared
 * library. capi/build.sh does either.
 *
 * The caller sees to it that each pointer points to an array of the length that follows it, aligned for its type and not null,
 * that no two arrays of a call overlap, and that nothing else uses them during the call. Calls keep nothing between them, so
 * threads may call at the same time on different arrays. Do not call from a signal handler.
 */
#ifndef CADZVIGU_H
#define CADZVIGU_H

#include <stddef.h>
#include <stdint.h>

#ifdef __cplusplus
extern "C" {
#endif

/* The rules, over the gaps on the three axes, each the spacing times the number of places apart. */
#define CADZVIGU_SQUARE 1u /* the sum of the squares of the gaps */
#define CADZVIGU_BLOCK 2u  /* the sum of the gaps */
#define CADZVIGU_CHESS 3u  /* the largest gap */

/* The statuses. A call asks its questions in the order that stands with it, and tells the first one that is answered no. */
#define CADZVIGU_DONE 0u            /* the arrays are filled */
#define CADZVIGU_SIZE_RANGE 1u      /* is each size from 1 to 1,023? */
#define CADZVIGU_TOO_MANY_CELLS 2u  /* are there at most 16,777,216 cells? */
#define CADZVIGU_NO_MARK 6u         /* is a cell marked? */
#define CADZVIGU_SPACING_RANGE 11u  /* is each spacing from 1 to 10,000? */
#define CADZVIGU_BYTE_COUNT 12u     /* is there one byte for each cell? */
#define CADZVIGU_HALF_GRID_SIZE 13u /* is each size at most 512? */
#define CADZVIGU_OUTPUT_COUNT 14u   /* does each array for the answers have one entry for each cell? */
#define CADZVIGU_ONE_KIND 15u       /* are there both marked and unmarked cells? */
#define CADZVIGU_UNKNOWN_RULE 100u  /* is the rule 1, 2 or 3? */
#define CADZVIGU_NO_MEMORY 101u     /* is there memory for the cells? */

/* Writes for each cell a nearest marked cell and its distance.
 *
 * bytes   one for each cell; a cell is marked where its byte is not 0
 * values  receives the distance of the nearest marked cell; under the square rule its square
 * points  receives the number of a nearest marked cell; which of several equally near is not said
 *
 * Returns 0, or a status with both arrays as they were. The questions in their order: 100, 11, 1, 2, 12, 14, 6, 101.
 * During the call it takes 24 bytes of memory for each cell by malloc.
 */
uint32_t cadzvigu_nearest(uint32_t rule, uint32_t sx, uint32_t sy, uint32_t sz, uint32_t nx, uint32_t ny, uint32_t nz,
                          const uint8_t *bytes, size_t bytes_length, uint64_t *values, size_t values_length,
                          uint32_t *points, size_t points_length);

/* Writes for each cell its distance from the nearest face between a marked and an unmarked cell, negated on marked cells.
 *
 * Distances are measured on the half-grid, which has 2n - 1 places where the grid has n, so a spacing is that of one half step:
 * with the spacings of the cells themselves the number is four times the squared distance under the square rule, and twice the
 * distance under the two others.
 *
 * bytes    one for each cell; a cell is marked where its byte is not 0
 * numbers  receives the signed distances
 *
 * Returns 0, or a status with the numbers as they were. The questions in their order: 100, 11, 1, 2, 12, 13, then 2 for the
 * places of the half-grid, 14, 15, 101. During the call it takes 24 bytes of memory for each place of the half-grid by malloc.
 */
uint32_t cadzvigu_signed(uint32_t rule, uint32_t sx, uint32_t sy, uint32_t sz, uint32_t nx, uint32_t ny, uint32_t nz,
                         const uint8_t *bytes, size_t bytes_length, int64_t *numbers, size_t numbers_length);

#ifdef __cplusplus
}
#endif

#endif
