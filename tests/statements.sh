#!/bin/sh
# usage: tests/statements.sh STATEMENTS TRIED    (paths from the root of the repository)
#        tests/statements.sh --try               (broken copies of the two papers, each of which must be refused)
#
# Holds docs/STATEMENTS.md and docs/TRIED.md to the tree (tests/statements.py, which needs python3 and nothing else):
#   Rows are numbered in each section without a gap, and "as N.M" is a row.
#   After the sentence each `name` has a file after it in its cell, and is declared there:
#     in .antt  `name` a declaration, record, data or constructor; `Record.field`; `f clause ..` a clause of f that begins so
#     in .rt    `name` a fn, struct, enum, const or type; `Type::name` one of an impl, or a variant; `Struct.field`; `u8::from(State)` an `impl From<State> for u8`
#     in any other file the word.
#   "contract of" stands before functions that have an ensures. Every path and every decision (D-1) is there.
#   must-fail `crate/edit` is a file, and every such file is named in one of the papers.
#   Every pub fn and every From of a library has a row in the table of public functions, or a line in docs/EXCEPTIONS.md, and asks nothing of its caller; its theorem
#   is about its own contract; it has two wrong answers in TRIED.
#   What a static library exports calls one function of a library, and has its parameters and its clauses.
#   A statement of specs/ whose comment begins with a `name` is proved below proofs/ under that name.
cd "$(dirname "$0")/.." || exit 2
if [ "$1" != --try ]; then
    if [ $# -ne 2 ]; then
        echo "usage: tests/statements.sh STATEMENTS TRIED" >&2
        exit 2
    fi
    for file in crates.txt docs/DECISIONS.md docs/EXCEPTIONS.md "$@"; do
        if [ ! -s "$file" ]; then
            echo "no such file, or an empty one: $file" >&2
            exit 2
        fi
    done
    exec python3 tests/statements.py "$@"
fi

room=$(mktemp -d) || exit 2
trap 'rm -rf "$room"' EXIT
tries=0
passed=0

# PAPER SED-EXPRESSION WHAT-IS-SAID: the copy with the edit must differ, and be refused with these words
broken() {
    cp docs/STATEMENTS.md docs/TRIED.md "$room"
    sed "$2" "docs/$1" > "$room/$1"
    tries=$((tries + 1))
    if cmp -s "docs/$1" "$room/$1"; then
        echo "changes nothing: $2"
        passed=$((passed + 1))
    elif python3 tests/statements.py "$room/STATEMENTS.md" "$room/TRIED.md" > "$room/said"; then
        echo "not refused: $2"
        passed=$((passed + 1))
    elif ! grep -qF "$3" "$room/said"; then
        echo "refused, but not for this: $2"
        cat "$room/said"
        passed=$((passed + 1))
    fi
}

# names and files
broken STATEMENTS.md '/^| 1.1 /s/`place_count`/`places_count`/' 'row 1.1: `places_count`: not in table/specs/Places'
broken STATEMENTS.md '/^| 1.11 /s,table/specs/Timers,table/specs/Status,' 'row 1.11: `timer_table`: not in table/specs/Status'
broken STATEMENTS.md '/^| 1.11 /s,table/specs/Timers,table/specs/Timer,' 'row 1.11: table/specs/Timer: there is no such file'
broken STATEMENTS.md '/^| 2.2 /s,`only_named`\, step/specs/Promises,`only_named`,' 'row 2.2: `only_named`: no file'
broken STATEMENTS.md '/^| 1.7 /s/`Sound.fits`/`Sound.suits`/' 'row 1.7: `Sound.suits`: not in table/specs/Sound'
broken STATEMENTS.md '/^| 2.8 /s/`turn_on LocalPickup`/`turn_on Pickup`/' 'row 2.8: `turn_on Pickup`: not in events/specs/Turn'
broken STATEMENTS.md '/^| 6.2 /s/`TIMERS`/`CLOCKS`/' 'row 6.2: `CLOCKS`: not in table/src/timers.rt'
broken STATEMENTS.md '/^| 1.6 /s/`u8::from(State)`/`u8::from(Side)`/' 'row 1.6: `u8::from(Side)`: not in table/src/lib.rt'
broken STATEMENTS.md '/^| 1.11 /s/; it reads/,/' 'row 1.11: contract of `TIMERS`: in table/src/timers.rt it is no fn with an ensures'
broken STATEMENTS.md '/^| 4.16 /s,vectors/refusals,vectors/refused,' 'row 4.16: tests/vectors/refused: there is no such file'
broken STATEMENTS.md '/^| 14.1 /s/D-45/D-450/' 'row 14.1: D-450: not in docs/DECISIONS.md'
# numbers
broken STATEMENTS.md '/^| 3.5 /d' 'row 3.6: its number should be 3.5'
broken STATEMENTS.md 's/^## 5\. /## 6. /' 'should be number 5'
broken STATEMENTS.md '/^| 1.8 /s/as 1.7/as 1.77/' 'row 1.8: as 1.77: there is no such row'
broken STATEMENTS.md '/^| 2.1 /s/ the type |/ the type | - |/' 'row 2.1: 5 cells, and its table has 4'
# public functions
broken STATEMENTS.md '$d' '`step_at`, phones/src/parked.rt: a public function with no row'
broken STATEMENTS.md '/^| 18.1 /s/`u8::from(State)`/`State::same`/' 'row 18.1: `State::same`, table/src/lib.rt: no pub fn of a library'
broken STATEMENTS.md '/^| 18.1 /s/number_decided/of_decided/' 'row 18.1: `Decided.of_decided`, table/proofs/Unique: is not about'
# edits
broken TRIED.md 's,must-fail `lamps/off_twice`,must-fail `lamps/off_thrice`,' 'must-fail `lamps/off_thrice`: there is no'
broken TRIED.md 's,must-fail `lamps/off_twice`,tried,' 'off_twice.edit is named in neither paper'
broken TRIED.md '/^| `Side::at`, table | a line/d' '`Side::at`, table: a public function with less than two wrong answers'
broken TRIED.md '/^| `parked::step_at`, phones | the picker/d' '`parked::step_at`, phones: a public function with less than two wrong answers'
broken TRIED.md '/^| `Side::at`, table | a line/s/ |$/ perhaps |/' '"perhaps" in the last column'

echo "$tries broken copies, $passed of them not refused as they should be"
[ "$passed" -eq 0 ]
