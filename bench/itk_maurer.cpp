// A peer: ITK's signed Maurer distance map, exact and squared, on one thread, over the marks that reference.cpp generates.
//
//   itk_maurer NX NY NZ SX SY SZ SEED PER_MILLE REPEATS
//
// writes the sum of the rounded values of all unmarked cells to standard output, and to standard error the seconds of each repeat.
#include <chrono>
#include <cmath>
#include <cstdint>
#include <cstdio>
#include <cstdlib>

#include "itkImage.h"
#include "itkSignedMaurerDistanceMapImageFilter.h"

using Marks = itk::Image<unsigned char, 3>;
using Distances = itk::Image<float, 3>;
using Filter = itk::SignedMaurerDistanceMapImageFilter<Marks, Distances>;

static void paint(Marks& image, size_t count, uint64_t seed, uint32_t per_mille) {
  unsigned char* mark = image.GetBufferPointer();
  uint64_t x = seed;
  for (size_t k = 0; k < count; k++) {
    x = x * 6364136223846793005ull + 1442695040888963407ull;
    mark[k] = ((x >> 33) % 1000) < per_mille ? 255 : 0;
  }
}

static double seconds() {
  return std::chrono::duration<double>(std::chrono::steady_clock::now().time_since_epoch()).count();
}

int main(int count, char** words) {
  if (count != 10) {
    fprintf(stderr, "NX NY NZ SX SY SZ SEED PER_MILLE REPEATS\n");
    return 2;
  }
  Marks::SizeType size;
  double spacing[3];
  size_t cells = 1;
  for (int axis = 0; axis < 3; axis++) {
    size[axis] = atoi(words[1 + axis]);
    spacing[axis] = atof(words[4 + axis]);
    cells *= size[axis];
  }
  auto image = Marks::New();
  image->SetRegions(Marks::RegionType(size));
  image->SetSpacing(spacing);
  image->Allocate();
  paint(*image, cells, atoll(words[7]), atoi(words[8]));
  Distances::Pointer distances;
  for (int repeat = 0; repeat < atoi(words[9]); repeat++) {
    auto filter = Filter::New();
    filter->SetInput(image);
    filter->SetBackgroundValue(0);
    filter->SquaredDistanceOn();
    filter->UseImageSpacingOn();
    filter->InsideIsPositiveOff();
    filter->GetMultiThreader()->SetMaximumNumberOfThreads(1);
    filter->SetNumberOfWorkUnits(1);
    double start = seconds();
    filter->Update();
    fprintf(stderr, "%.5f\n", seconds() - start);
    distances = filter->GetOutput();
  }
  long long sum = 0;
  for (size_t k = 0; k < cells; k++)
    if (!image->GetBufferPointer()[k]) sum += llround(distances->GetBufferPointer()[k]);
  printf("%lld\n", sum);
}
