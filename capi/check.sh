#!/bin/sh
# Builds the library for C and Python, runs the examples, and compares the library with SciPy and with plain searches.
# Needs what build.sh needs, and numpy and scipy (Debian: python3-numpy, python3-scipy). PYTHON may name another interpreter.
set -eu
cd "$(dirname "$0")/.."
python=${PYTHON:-/usr/bin/python3}
capi/build.sh
for example in target/capi/example target/capi/example_cpp "$python capi/example.py"; do
    $example | diff capi/example.txt -
    echo "$example: as in capi/example.txt"
done
"$python" capi/compare.py "$@"
