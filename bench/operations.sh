#!/usr/bin/env bash
# Times trimming, unions and intersections: operations.sh [VATA], by default bin/vata at the top.
. "$(dirname "$0")/common.sh"

for size in "20000 100000" "100000 500000" "200000 1000000"; do
  # shellcheck disable=SC2086
  made make $size
  timed "load -p, states and rules $size" "$vata" load -p "$file"
  timed "union of the same file twice" "$vata" union "$file" "$file"
done
for kind in chain fan; do
  made shapes $kind 200000
  timed "load -p, $kind of 200000 states" "$vata" load -p "$file"
done
for sizes in "311 331" "701 709" "991 997"; do
  read -r left right <<< "$sizes"
  made shapes cycle "$left"
  first=$file
  made shapes cycle "$right"
  timed "isect, $((left * right)) pairs of two cycles" "$vata" isect "$first" "$file"
done
made make 100 400
first=$file
made make 120 480
timed "isect of two random automata of 100 and 120 states" "$vata" isect "$first" "$file"
