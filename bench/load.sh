#!/usr/bin/env bash
# Times `vata load` on files of growing size, and on two with names in letters and digits: load.sh [VATA], by default bin/vata at the top.
. "$(dirname "$0")/common.sh"

for size in "25000 125000" "50000 250000" "100000 500000" "200000 1000000" "2000 2000000 1 short" "200000 1000000 1 short"; do
  # shellcheck disable=SC2086
  made make $size
  timed "states and rules $size, $(stat -c %s "$file") bytes" "$vata" load "$file"
done
