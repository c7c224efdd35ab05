# shellcheck shell=bash disable=SC2034
# What the scripts share, sourced with the script's words: the programs, the folder of files, and how to
# make a file and time a command.
set -eu
here=$(cd "$(dirname "${BASH_SOURCE[0]}")" && pwd)
vata=${1:-$here/../bin/vata}
check=${2:-$here/../bin/vata_check}
data=$here/data
mkdir -p "$data"

# made MAKER WORDS..: the file that this maker writes for these words, made once.
made() {
  file=$data/$(IFS=_; echo "$*").tmb
  [ -f "$file" ] || python3 "$here/$1.py" "${@:2}" > "$file"
}

# timed TEXT COMMAND..: the text, and the times of the command.
timed() {
  echo "$1"
  python3 "$here/time.py" "${@:2}"
}
