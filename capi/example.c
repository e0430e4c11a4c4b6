/* A grid of 3 x 2 cells with one mark, under the square rule. capi/example.txt has what this prints. */
#include "cadzvigu.h"

#include <inttypes.h>
#include <stdio.h>

enum { NX = 3, NY = 2, NZ = 1, COUNT = NX * NY * NZ };

int main(void) {
  const uint8_t marks[COUNT] = {1, 0, 0, 0, 0, 0};
  uint64_t values[COUNT];
  uint32_t points[COUNT];
  int64_t numbers[COUNT];
  uint32_t status = cadzvigu_nearest(CADZVIGU_SQUARE, 2, 2, 2, NX, NY, NZ, marks, COUNT, values, COUNT, points, COUNT);
  if (status == CADZVIGU_DONE) {
    status = cadzvigu_signed(CADZVIGU_SQUARE, 1, 1, 1, NX, NY, NZ, marks, COUNT, numbers, COUNT);
  }
  if (status != CADZVIGU_DONE) {
    fprintf(stderr, "refused: %" PRIu32 "\n", status);
    return 1;
  }
  printf("cell point value signed\n");
  for (uint32_t k = 0; k < COUNT; k++) {
    printf("%" PRIu32 " %" PRIu32 " %" PRIu64 " %" PRId64 "\n", k, points[k], values[k], numbers[k]);
  }
  status = cadzvigu_nearest(CADZVIGU_SQUARE, 2, 2, 0, NX, NY, NZ, marks, COUNT, values, COUNT, points, COUNT);
  printf("a spacing of 0: %" PRIu32 "\n", status);
  return 0;
}
