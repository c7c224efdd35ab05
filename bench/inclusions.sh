#!/usr/bin/env bash
# Times inclusions, and checks of the certificates that they print: inclusions.sh [VATA] [VATA_CHECK], by default
# those of bin/ at the top.
. "$(dirname "$0")/common.sh"

# asked NAME A B [SETTINGS]: the inclusion plain and with simulations, each with the check of its certificate.
asked() {
  local cert settings sim
  for sim in no yes; do
    settings=sim=$sim${4:+,$4}
    cert=$data/$(basename "$2" .tmb)_in_$(basename "$3" .tmb)_$sim.cert
    timed "incl -o $settings, $1" "$vata" incl -o "$settings" "$2" "$3"
    "$vata" incl -o "$settings" "$2" "$3" > "$cert" || true
    echo "$(head -n 1 "$cert"), $(stat -c %s "$cert") bytes"
    timed "check of it" "$check" "$2" "$3" "$cert"
  done
}

for states in 30 40 50 60; do
  made inclusion_shapes random $states 1
  left=$file
  made inclusion_shapes random $states 2
  asked "two random automata of $states states" "$left" "$file" budget=1000
done
made inclusion_shapes red_black 200
left=$file
made inclusion_shapes coloured
asked "red-black trees of black height 200 in coloured trees" "$left" "$file"
made inclusion_shapes heap 200
left=$file
made inclusion_shapes height 200
asked "balanced trees of height 200 in all of that height" "$left" "$file"
for letters in 10 12 14; do
  made inclusion_shapes words
  left=$file
  made inclusion_shapes letters $letters
  asked "2^$letters sets" "$left" "$file"
done
made shapes chain 20000
left=$file
for states in 7 10; do
  made shapes cycle $states
  asked "a chain of 20000 states in a cycle of $states" "$left" "$file"
done

made inclusion_shapes sums 5000
left=$file
made inclusion_shapes parity
cert=$data/sums_in_parity_5000.cert
[ -f "$cert" ] || python3 "$here/inclusion_shapes.py" sums_in_parity 5000 > "$cert"
timed "check of 10000 pairs, two for each state" "$check" "$left" "$file" "$cert"
