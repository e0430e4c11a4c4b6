"""A grid of 3 x 2 cells with one mark, under the square rule. capi/example.txt has what this prints."""
import numpy as np

import cadzvigu

marks = np.array([[1, 0, 0], [0, 0, 0]], dtype=bool)
values, points = cadzvigu.nearest(marks, spacings=(2, 2, 2))
numbers = cadzvigu.signed(marks)
print('cell point value signed')
for k in range(marks.size):
    print(k, points.flat[k], values.flat[k], numbers.flat[k])
try:
    cadzvigu.nearest(marks, spacings=(2, 2, 0))
except cadzvigu.Refused as refused:
    print('a spacing of 0:', refused.number)
