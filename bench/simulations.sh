#!/usr/bin/env bash
# Times simulations and reduction: simulations.sh [VATA], by default bin/vata at the top.
. "$(dirname "$0")/common.sh"

# related TEXT: both simulations of the file, and its reduction.
related() {
  timed "sim, $1" "$vata" sim "$file"
  timed "sim -o dir=up, $1" "$vata" sim -o dir=up "$file"
  timed "red, $1" "$vata" red "$file"
}

for size in "500 1500" "1000 3000" "2000 6000" "5000 15000"; do
  # shellcheck disable=SC2086
  made make $size
  related "states and rules $size"
done
for kind in chain doubled; do
  made shapes $kind 5000
  related "$kind of 5000 states"
done
