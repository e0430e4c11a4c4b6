#!/bin/sh
# Proves the crate cadzvigu_c, and writes to target/ the archive libcadzvigu.a, the shared library libcadzvigu.so and the C example.
# Needs the Rattle kit (`rt` on the path), gcc and g++.
set -eu
cd "$(dirname "$0")/.."
(cd crates/cadzvigu_c && rt lib)
archive=target/staticlib/libcadzvigu.a
runtime=$(dirname "$(rt doc)")/c/liblibc_c.a
strict='-O2 -Wall -Wextra -Werror'
mkdir -p target/staticlib target/capi
cp crates/cadzvigu_c/out/libcadzvigu_c.a "$archive"
gcc -shared -o target/capi/libcadzvigu.so -Wl,--whole-archive "$archive" -Wl,--no-whole-archive "$runtime"
gcc $strict -std=c11 -o target/capi/example capi/example.c "$archive" "$runtime"
g++ $strict -std=c++17 -o target/capi/example_cpp -x c++ capi/example.c -x none "$archive" "$runtime"
