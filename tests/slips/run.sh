#!/bin/sh
# Shows that the comparison finds deliberate changes: each patch here is put
# into a copy of the reference, which then stands in for the library under
# test. Those named table-* are put into the reader and the writer of tables, which then stand in for import and export.
# The last line is "N passed, M failed", a slip that is found passes; names pick single slips.
set -eu
cd "$(dirname "$0")/.."
tests=$PWD
work=$tests/target/slips
export CARGO_BUILD_JOBS=1

# copy: these sources, where a patch may change them.
copy() {
    rm -rf "$work/$1"
    mkdir -p "$work/$1"
    cp -R Cargo.toml Cargo.lock reference boundary compare standin table "$work/$1/"
}

# build: the stand-in from the copy; with --release one for long lists. A slip may leave a name unused, and changes a few lines, so only what they touch
# is compiled again.
build() {
    (cd "$work/source" &&
        CARGO_INCREMENTAL=1 RUSTFLAGS='-A warnings' cargo --offline build --quiet "$@" -p standin --target-dir "$work/build")
}

# build_table: the same for tables, where little is computed.
build_table() {
    (cd "$work/table-source" && RUSTFLAGS='-A warnings' cargo --offline build --quiet -p table --bin table-standin --target-dir "$work/build")
}

copy source
build --release
copy table-source
DEPOSITORY_LIB=$work/build/release/libstandin.so \
    cargo --offline build --quiet --release -p compare -p table --target-dir "$work/compare"

# try: runs the comparison with the stand-in built last, in that profile.
try() {
    profile=$1
    shift
    LD_LIBRARY_PATH=$work/build/$profile "$work/compare/release/compare" "$@" > "$work/output" 2>&1
}

# try_table: runs the trial of tables in the same way, where a drawn table must show the slip.
try_table() {
    mkdir -p "$work/kept"
    standin=$work/build/debug/table-standin
    TMPDIR=$work/kept "$work/compare/release/tables" "$standin" "$standin" --runs 3000 > "$work/output" 2>&1
}

# try_ledger: most slips show in a short list.
try_ledger() {
    try debug --replay 'busy trading' 1 5000 && { build --release; try release --seed 1; }
}

# slip: the stand-in with a slip. The patch is taken out again before the next, so that only what either touches is compiled.
slip() {
    if [ -n "${last:-}" ]; then patch --quiet --reverse --directory="$work/source" -p1 < "slips/$last.patch"; fi
    patch --quiet --directory="$work/source" -p1 < "slips/$1.patch"
    last=$1
    build
}

# slip_table: the same for tables. The patch is taken out again, so that only what it touches is compiled.
slip_table() {
    patch --quiet --directory="$work/table-source" -p1 < "slips/$1.patch"
    build_table
    patch --quiet --reverse --directory="$work/table-source" -p1 < "slips/$1.patch"
}

if [ $# -eq 0 ]; then
    echo "unchanged stand-ins:"
    build
    try debug --replay 'busy trading' 1 5000 || { cat "$work/output"; exit 1; }
    echo "    $(tail -n 1 "$work/output")"
    build_table
    try_table || { cat "$work/output"; exit 1; }
    echo "    $(tail -n 1 "$work/output")"
    set -- slips/*.patch
fi
found=0
missed=0
for patch in "$@"; do
    name=$(basename "$patch" .patch)
    case $name in
        table-*) slip_table "$name"; try=try_table; by='^FAILED: run ' ;;
        *) slip "$name"; try=try_ledger; by='^FAILED: ' ;;
    esac
    if $try || ! grep -q -E "$by" "$work/output"; then
        echo "$name: MISSED"
        missed=$((missed + 1))
    else
        echo "$name: $(grep -m 1 "$by" "$work/output" | cut -c 9-140)"
        found=$((found + 1))
    fi
done
echo "$found passed, $missed failed"
[ "$missed" -eq 0 ]
