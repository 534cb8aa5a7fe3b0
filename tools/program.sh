#!/usr/bin/env bash
# Proves and builds a program of the repository where that is still to be done, and runs it: bash tools/program.sh NAME WORD..
set -eu
here=$(cd "$(dirname "$0")/.." && pwd)
name=$1
shift
program=$here/crates/$name/out/$name
command -v rt >/dev/null || { echo "rt of the Rattle kit is not on the PATH" >&2; exit 1; }
[ -x "$program" ] || echo "proving and building $name: this takes long, the first time" >&2
log=$(mktemp)
# `rt run` leaves the program where it is, and runs it once, without words and on empty input.
if ! (cd "$here/crates/$name" && rt run) >"$log" 2>&1 </dev/null; then
    cat "$log" >&2
    rm -f "$log"
    exit 1
fi
rm -f "$log"
exec "$program" "$@"
