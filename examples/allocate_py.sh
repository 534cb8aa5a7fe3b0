#!/bin/sh
# Builds the C library, links it into a shared library and runs allocate.py over it: bash examples/allocate_py.sh
set -e
cd "$(dirname "$0")/.."
. examples/library.sh
"${CC:-cc}" -shared -o target/libfolgrist_mp2.so -Wl,--whole-archive target/staticlib/libfolgrist_mp2.a -Wl,--no-whole-archive
python3 examples/allocate.py target/libfolgrist_mp2.so
