#!/usr/bin/env bash
# usage: tests/vectors.sh [PROGRAM]    (target/bin/parkline if none is named)
#
# Outside vectors: NAME.events is what the program reads, NAME.answers what it must print, octet for octet. An independent model made them, and
# they are copied as they are (docs/DECISIONS.md, D-15).
#
# Where PARK_VECTORS names the folder of the originals, each copy is held to its original too. There the folder base/ has document 01's files, and
# Q-N/ those that request Q-N brought or changed: the original is in the newest folder of a request that has landed.
set -euo pipefail
shopt -s nullglob
cd "$(dirname "$0")/.."
program=${1:-target/bin/parkline}
here=tests/vectors
originals=${PARK_VECTORS:-}
landed=(Q-4 Q-3 Q-1 base) # newest first

bad=0
complain() {
  echo "vectors: FAILED: $*"
  bad=1
}

hold_to_original() { # FILE
  local folder original
  for folder in "${landed[@]}"; do
    original=$originals/$folder/${1##*/}
    [ -f "$original" ] || continue
    held=$((held + 1))
    cmp "$1" "$original" || complain "$1 is not its original, $original"
    return
  done
  complain "$1 has no original"
}

files=0 lines=0 held=0
# each name once, whichever file of its pair is there
for name in $(for file in "$here"/*; do basename "${file%.*}"; done | sort -u); do
  events=$here/$name.events answers=$here/$name.answers
  if [ ! -f "$events" ] || [ ! -f "$answers" ]; then
    complain "$name has not both of its files, $name.events and $name.answers"
    continue
  fi
  # cmp says at which octet and line the first difference is
  "$program" < "$events" | cmp - "$answers" || complain "$program does not print $answers, or ends badly"
  count=$(wc -l < "$answers")
  echo "vectors $name: $count lines"
  files=$((files + 1)) lines=$((lines + count))
  if [ -n "$originals" ]; then
    hold_to_original "$events"
    hold_to_original "$answers"
  fi
done
[ "$files" -gt 0 ] || complain "there are none in $here"
[ "$lines" -gt 0 ] || complain "there is no line to compare"
if [ -n "$originals" ]; then
  echo "vectors: $held files held to their originals in $originals"
else
  echo "vectors: not held to their originals, as PARK_VECTORS names no folder"
fi
echo "vectors: $files files, $lines lines compared with what $program prints"
exit "$bad"
