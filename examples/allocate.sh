#!/bin/sh
# Builds the C library, compiles allocate.c against it and runs it: bash examples/allocate.sh
set -e
cd "$(dirname "$0")/.."
. examples/library.sh
"${CC:-cc}" -std=c99 -Wall -Wextra -O2 -Iinclude examples/allocate.c target/staticlib/libfolgrist_mp2.a -o target/allocate
target/allocate
