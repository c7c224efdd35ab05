#!/usr/bin/env bash
# Times rows and matrices of 20,000 places beside the same loops in C at -O2: bench/rows/run.sh.
# The timing program is proved and built in a copy, since the gate knows only the crates of crates.txt.
set -eu
here=$(cd "$(dirname "$0")" && pwd)
top=$(cd "$here/../.." && pwd)
copy=$(mktemp -d)
trap 'rm -rf "$copy"' EXIT
mkdir -p "$copy/crates/row_bench/src" "$copy/crates/row_bench/specs"
cp -r "$top/crates/bit_rows" "$top/crates/bit_matrix" "$copy/crates/"
cp "$top/HANDLES" "$copy/"
printf 'bit_rows:\nbit_matrix: bit_rows\nrow_bench: bit_rows bit_matrix\n' > "$copy/crates.txt"
cp "$here/row_bench.txt" "$copy/crates/row_bench/src/main.rt"
: > "$copy/crates/row_bench/specs/Lib.antt"
echo "ours"
(cd "$copy/crates/row_bench" && rt run 2> "$copy/log") || { cat "$copy/log" >&2; exit 1; }
for compiler in gcc clang; do
  command -v "$compiler" > /dev/null || continue
  echo "$compiler"
  "$compiler" -O2 -march=x86-64-v2 -o "$copy/rows" "$here/rows.c"
  "$copy/rows"
done
