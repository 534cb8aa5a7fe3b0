#!/bin/sh
# Builds the C library, compiles check.c against its header as C99 and as C++11, and runs both: bash examples/check.sh
# Then holds the header's declarations against the archive and against the source.
set -e
cd "$(dirname "$0")/.."
. examples/library.sh
archive=target/staticlib/libfolgrist_mp2.a
"${CC:-cc}" -std=c99 -Wall -Wextra -pedantic -Werror -Iinclude examples/check.c $archive -o target/check_c
"${CXX:-c++}" -std=c++11 -Wall -Wextra -pedantic -Werror -Iinclude -x c++ examples/check.c -x none $archive -o target/check_cxx
echo "C99"
target/check_c
echo "C++11"
target/check_cxx

# The header against the archive's symbols, and against the source: parameters in their order, types, what is returned.
declared=$(tr -s ' \n' ' ' <include/folgrist_mp2.h | grep -o 'folgrist_[a-z_]*([^()]*);' | sed 's/(.*//' | sort)
exported=$(nm -g $archive 2>/dev/null | sed -n 's/^.* T \(folgrist_[a-z_]*\)$/\1/p' | sort)
[ "$declared" = "$exported" ] || { echo "the header declares other functions than the archive has" >&2; exit 1; }
python3 examples/declarations.py
echo "the header declares the functions of the archive, with the parameters and types of the source"
