// The measure for speed: an exact nearest-mark transform under the square rule, row by row, written by hand in C++ over the
// same records (marked, level, point, value). It tests nothing, and takes its input as right.
//
//   reference NX NY NZ SX SY SZ SEED PER_MILLE REPEATS
//
// writes the sum of all values to standard output, and to standard error for each repeat the seconds of the three axes and
// their sum.
#include <chrono>
#include <cstdint>
#include <cstdio>
#include <cstdlib>
#include <vector>

struct Cell {
  uint64_t value;
  uint32_t has;
  uint32_t point;
  uint8_t level;
  uint8_t marked;
};

struct Candidate {
  uint64_t value;
  uint32_t point;
  uint16_t place, start;
};

static inline uint32_t crossing(uint64_t unit, uint32_t i, uint64_t g, uint32_t j, uint64_t h) {
  uint64_t needed = unit * ((uint64_t)j * j - (uint64_t)i * i) + h;
  if (needed <= g) return 0;
  uint64_t divisor = 2 * unit * (j - i);
  uint64_t place = (needed - g + divisor - 1) / divisor;
  return place > 1023 ? 1023 : (uint32_t)place;
}

static void work_row(Cell* cells, size_t stride, uint32_t n, uint64_t unit, uint8_t level) {
  Candidate stack[1023];
  int len = 0;
  for (uint32_t j = 0; j < n; j++) {
    Cell& cell = cells[j * stride];
    if (!cell.has) continue;
    uint32_t start = 0;
    bool push = true;
    while (len) {
      start = crossing(unit, stack[len - 1].place, stack[len - 1].value, j, cell.value);
      if (start <= stack[len - 1].start) {
        len--;
        start = 0;
        continue;
      }
      push = start < n;
      break;
    }
    if (len == 0) {
      start = 0;
      push = true;
    }
    if (push) stack[len++] = Candidate{cell.value, cell.point, (uint16_t)j, (uint16_t)start};
  }
  int k = 0;
  for (uint32_t t = 0; t < n; t++) {
    Cell& cell = cells[t * stride];
    cell.level = level;
    if (!len) {
      cell.value = 0;
      cell.has = 0;
      continue;
    }
    if (k + 1 < len && stack[k + 1].start <= t) k++;
    int64_t gap = (int64_t)t - stack[k].place;
    cell.value = stack[k].value + unit * (uint64_t)(gap * gap);
    cell.has = 1;
    cell.point = stack[k].point;
  }
}

static double seconds() {
  return std::chrono::duration<double>(std::chrono::steady_clock::now().time_since_epoch()).count();
}

static void paint(std::vector<Cell>& cells, uint64_t seed, uint32_t per_mille) {
  uint64_t x = seed;
  for (size_t k = 0; k < cells.size(); k++) {
    x = x * 6364136223846793005ull + 1442695040888963407ull;
    bool marked = ((x >> 33) % 1000) < per_mille;
    cells[k] = Cell{0, marked, (uint32_t)k, 0, marked};
  }
}

int main(int count, char** words) {
  if (count != 10) {
    fprintf(stderr, "NX NY NZ SX SY SZ SEED PER_MILLE REPEATS\n");
    return 2;
  }
  uint32_t nx = atoi(words[1]), ny = atoi(words[2]), nz = atoi(words[3]);
  uint64_t sx = atoi(words[4]), sy = atoi(words[5]), sz = atoi(words[6]);
  uint64_t seed = atoll(words[7]);
  uint32_t per_mille = atoi(words[8]);
  int repeats = atoi(words[9]);
  std::vector<Cell> cells((size_t)nx * ny * nz);
  for (int repeat = 0; repeat < repeats; repeat++) {
    paint(cells, seed, per_mille);
    double start = seconds();
    for (size_t q = 0; q < (size_t)ny * nz; q++) work_row(&cells[q * nx], 1, nx, sx * sx, 1);
    double first = seconds();
    for (uint32_t z = 0; z < nz; z++)
      for (uint32_t x = 0; x < nx; x++) work_row(&cells[x + (size_t)nx * ny * z], nx, ny, sy * sy, 2);
    double second = seconds();
    for (uint32_t y = 0; y < ny; y++)
      for (uint32_t x = 0; x < nx; x++) work_row(&cells[x + (size_t)nx * y], (size_t)nx * ny, nz, sz * sz, 3);
    double third = seconds();
    fprintf(stderr, "%.5f %.5f %.5f %.5f\n", first - start, second - first, third - second, third - start);
  }
  uint64_t sum = 0;
  for (const Cell& cell : cells) sum += cell.value;
  printf("%llu\n", (unsigned long long)sum);
}
