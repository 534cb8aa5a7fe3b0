# Builds target/staticlib/libfolgrist_mp2.a: bash examples/library.sh, at the top of the repository. The scripts beside it name this file.
command -v rt >/dev/null || { echo "rt of the Rattle kit is not on the PATH" >&2; exit 1; }
mkdir -p target/staticlib
echo "proving and building the library: this takes long, the first time" >&2
(cd crates/folgrist_mp2_c && rt lib) >target/staticlib.log 2>&1 </dev/null ||
    { cat target/staticlib.log >&2; echo "the library was not built" >&2; exit 1; }
cp crates/folgrist_mp2_c/out/libfolgrist_mp2_c.a target/staticlib/libfolgrist_mp2.a
