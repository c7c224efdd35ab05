#!/usr/bin/env bash
# Builds the proved programs and copies them to a folder: ./install.sh [FOLDER], by default bin/ beside this script.
set -eu
top=$(cd "$(dirname "$0")" && pwd)
folder=${1:-$top/bin}
mkdir -p "$folder"
for pair in vata_cli:vata vata_check:vata_check; do
  crate=${pair%%:*}
  name=${pair##*:}
  [ -d "$top/crates/$crate" ] || continue
  # `rt run` proves the crate and leaves the program at out/; what it prints for no words is not wanted here.
  (cd "$top/crates/$crate" && rt run > /dev/null 2>&1 || true)
  built=$top/crates/$crate/out/$crate
  [ -x "$built" ] || { echo "install.sh: $crate was not built; run 'rt check' in crates/$crate" >&2; exit 1; }
  install -m 755 "$built" "$folder/$name"
  echo "$folder/$name"
done
