#!/usr/bin/env bash
# Builds the oracle around the unchanged Rust in RUST_FOLDER/src and runs it.
# The build lies in target/oracle; nothing is fetched. Of the Rust only audio_data.rs is copied, to
# there.
set -eu

usage() {
    echo "usage: run.sh RUST_FOLDER answers|sample [--seed S]" >&2
    echo "       run.sh RUST_FOLDER compare --cases N --seed S [--archive PATH]" >&2
    echo "       run.sh RUST_FOLDER selfcheck|bench [--archive PATH]" >&2
    echo "       run.sh RUST_FOLDER beside OTHER_ARCHIVE [--archive PATH]" >&2
    exit 2
}

[ "$#" -ge 2 ] || usage
rust=$(cd "$1" && pwd)
shift
tool=$(cd "$(dirname "$0")" && pwd)
target=$(cd "$tool/../.." && pwd)/target
out=$target/oracle
mkdir -p "$out"

# The archive is linked, so its path is not for the program.
archive=$target/staticlib/libfolgrist_mp2.a
words=()
while [ "$#" -gt 0 ]; do
    if [ "$1" = --archive ]; then
        [ "$#" -ge 2 ] || usage
        archive=$2
        shift 2
    else
        words+=("$1")
        shift
    fi
done

# Two builds of the library are timed beside each other as shared objects, each linked four times, with
# 64, 80, 96 and 112 bytes before its code.
shared_objects() {
    local bytes object
    for bytes in 64 80 96 112; do
        object=$out/$2_$bytes
        printf '.section .text.gap,"ax"\n.balign 64\n.skip %d\n.section .note.GNU-stack,""\n' "$bytes" |
            cc -x assembler -c -o "$object.o" -
        cc -shared -nostdlib "$object.o" -Wl,--whole-archive "$1" -o "$object.so"
        words+=("$object.so")
    done
}

there() {
    if [ ! -f "$1" ]; then
        echo "run.sh: no archive of the C library at $1" >&2
        echo "run.sh: $2" >&2
        exit 2
    fi
}
case ${words[0]} in
compare | selfcheck | bench | beside)
    there "$archive" "make it by 'bash examples/library.sh' at the top of the repository, or name one by --archive PATH"
    ;;
esac
if [ "${words[0]}" = beside ]; then
    [ "${#words[@]}" -eq 2 ] || usage
    other=${words[1]}
    there "$other" "name one that 'bash examples/library.sh' made of another tree"
    words=(beside)
    shared_objects "$other" other
    shared_objects "$archive" library
fi

# The Rust's files are the modules of one crate; they name one another by `crate::`.
# The writers of audio_data.rs are private: to its text, as it is, a public function is added.
cat "$rust/src/audio_data.rs" "$tool/writers.rs" >"$out/audio_data.rs"
for module in tables header bitalloc audio_data encoder_bit_allocator \
    encoder_scalefactors encoder_scfsi encoder_samples; do
    file=$rust/src/$module.rs
    [ "$module" != audio_data ] || file=$out/audio_data.rs
    printf '#[path = "%s"]\npub mod %s;\n' "$file" "$module"
done >"$out/reference.rs"

# As in a release build: overflow wraps and debug assertions are not asked.
build() {
    rustc --edition 2024 -O -C overflow-checks=off -C debug-assertions=off \
        --out-dir "$out" -L "$out" "$@"
}
core=(--extern oxideav_core="$out/liboxideav_core.rlib")
reference=(--extern reference="$out/libreference.rlib")
questions=(--extern questions="$out/libquestions.rlib")
build --crate-name oxideav_core --crate-type rlib "$tool/core.rs"
build --crate-name reference --crate-type rlib --cap-lints allow "${core[@]}" "$out/reference.rs"
build --crate-name questions --crate-type rlib "${core[@]}" "${reference[@]}" "$tool/lib.rs"

case ${words[0]} in
compare | selfcheck | bench | beside)
    # For the bench the same Rust once more, on a reader and a writer that are quick.
    packing=$out/libpacking.rlib
    build --crate-name packing --crate-type rlib "${core[@]}" "$tool/packing.rs"
    build --crate-name packed --crate-type rlib --cap-lints allow \
        --extern oxideav_core="$packing" "$out/reference.rs"
    build --crate-name compare "${core[@]}" "${reference[@]}" "${questions[@]}" \
        --extern packing="$packing" --extern packed="$out/libpacked.rlib" \
        -C link-arg="$archive" "$tool/compare/main.rs"
    exec "$out/compare" "${words[@]}"
    ;;
*)
    build --crate-name oracle "${questions[@]}" "$tool/main.rs"
    exec "$out/oracle" "${words[@]}"
    ;;
esac
