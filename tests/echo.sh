#!/usr/bin/env bash
# usage: tests/echo.sh [PROGRAM]    (target/bin/echoline if none is named)
#
# Lines that are read and written back, held to the outside vectors (tests/vectors): every answer line comes back octet for octet, and so does
# every event line, but for those that the vectors' answers refuse by 21 to 24, of which that number comes back.
set -euo pipefail
cd "$(dirname "$0")/.."
export LC_ALL=C
program=${1:-target/bin/echoline}

bad=0 lines=0 refused=0
hold() { # WHAT EXPECTED, with the lines on standard input
  "$program" | cmp - "$2" || { echo "echo: FAILED: $program does not give $1 back"; bad=1; }
  lines=$((lines + $(wc -l < "$2")))
}

expected=$(mktemp)
trap 'rm -f "$expected"' EXIT
for answers in tests/vectors/*.answers; do
  events=${answers%.answers}.events
  hold "$answers" "$answers" < "$answers"
  # an octet that is in no vector parts a line from its answer; sed ends a last line that lacks its feed
  paste -d $'\001' <(sed '$a\' "$events") "$answers" |
    awk -F $'\001' '{ split($2, answer, "\t"); print (answer[1] >= 21 && answer[1] <= 24 ? answer[1] : $1) }' > "$expected"
  refused=$((refused + $(grep -c '^2[1-4]$' "$expected" || true)))
  hold "$events" "$expected" < "$events"
done
[ "$lines" -gt 0 ] || { echo "echo: FAILED: there is no line to give back"; bad=1; }
[ "$refused" -gt 0 ] || { echo "echo: FAILED: no vector refuses a line"; bad=1; }
echo "echo: $program held to $lines lines, of which $refused are refused"
exit "$bad"
