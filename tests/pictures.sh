#!/bin/sh
# usage: tests/pictures.sh FILE..    (paths from the root of the repository)
#
# Holds the Mermaid pictures in Markdown files to what they show. A picture is known by its second line:
#   %% picture: position    the machine of a park position: the accepted rows of crates/machine/stdout
#   %% picture: line        the machine of an alerting line: the same
#   %% picture: crates      crates.txt
#   %% picture: parking     the parking endpoint: the accepted rows of its table in crates/phoneline/stdout
#   %% picture: parked      the parked endpoint: the same
# Each row and each entry is written as the one line that would draw it, and each line of a picture is taken apart
# into such lines, so that to compare is to compare text. The files must have the five pictures between them.
cd "$(dirname "$0")/.." || exit 2
if [ $# -eq 0 ]; then
    echo "usage: tests/pictures.sh FILE.." >&2
    exit 2
fi
for file in crates/machine/stdout crates.txt crates/phoneline/stdout "$@"; do
    if [ ! -s "$file" ]; then
        echo "no such file, or an empty one: $file" >&2
        exit 2
    fi
done
exec awk '
BEGIN {
    split("park,alert,local pickup,pickrequ,result,error,error in release,release,answered", kinds, ",")
    split("free,CP-WaitforPickup,WaitforPickup,CpickupRequested,CpickupRemoteRequested,handed over", states, ",")
    split("park request,cpRequest result,cpRequest error,cpRequest Reject,primary call cleared,T1", asked, ",")
    for (n in asked) event["parking", n] = n " " asked[n]
    split("cpRequest,cpSetup result,cpSetup error,cpSetup Reject,primary call cleared,parked call cleared,pickup in CONNECT,pickup in FACILITY," \
        "pickExe result,pickExe error,pickExe Reject,pickExe error in release,pickExe Reject in release,call to the picker cleared,plain CONNECT,T2,T10", asked, ",")
    for (n in asked) event["parked", n] = n " " asked[n]
    pictures = split("position,line,crates,parking,parked", picture, ",")
}

FNR == 1 { leave(); file = FILENAME; nth++ }

nth == 1 && FNR > 1 { split($0, column, "\t"); row() }

nth == 2 { sub(/#.*/, ""); if (NF) entry() }

nth == 3 && split($0, column, "\t") == 11 && (column[1] == "parking" || column[1] == "parked") { phone() }

nth > 3 && /^```/ { drawn = ""; fence = $0 == "```mermaid" ? FNR : -2; next }
nth > 3 && FNR == fence + 2 && $1 == "%%" && $2 == "picture:" { drawn = $3; held[drawn] = shown[drawn] = 1; next }
nth > 3 && drawn != "" { line() }

END {
    leave()
    for (p = 1; p <= pictures; p++)
        if (!(picture[p] in held)) { print "no picture of: " picture[p]; differs = 1 }
    exit differs
}

# A row of the table: its state is a box of its side, and if it is accepted, it is an arrow.
function row(    what) {
    want[column[1], "s" column[2] " : " column[2] " " states[column[2] + 1]]
    if (column[6] != 0) return
    what = column[3] == 10 ? "10 T" column[5] : column[3] " " kinds[column[3]]
    if (column[4] != "-") { either[what]; what = what " (" column[4] ")" }
    want[column[1], "s" column[2] " --> s" column[7] " : " what sent(column[8], column[12])]
}

# A row of the table of a phone: its state is a box, and if it is accepted, it is an arrow. An error value is left out.
function phone(    what, m, n) {
    what = event[column[1], column[3]]
    if (column[4] != "-") what = what (column[4] ? " (accepted)" : " (turned down)")
    want[column[1], state(column[2]) " : " column[2]]
    if (column[5] != 0) return
    m = column[7]
    n = column[8]
    sub(/ [0-9]+$/, "", m)
    want[column[1], state(column[2]) " --> " state(column[6]) " : " what (m == "-" ? "" : " / " m) (n == "-" ? "" : ", then " n)]
}

function state(name) {
    return "s" (name == "CP-Idle" ? 0 : name == "CpickupSetupInit" ? 2 : 1)
}

# What stands on an arrow for the messages of a row. They are sent in this order, so it counts.
function sent(first, second) {
    if (second) return " / messages " first " and " second
    return first ? " / message " first : ""
}

# An entry of crates.txt: its crate and what that stands on are boxes, with an arrow between them. A static library is a crate like any other.
function entry(    from, i) {
    sub(/ staticlib:/, ":")
    sub(/:/, " ")
    from = $1
    want["crates", from]
    for (i = 2; i <= NF; i++) { want["crates", $i]; want["crates", from " --> " $i] }
}

# A line of a picture. One that is neither a box nor an arrow is taken as it is, and so is too many.
function line() {
    sub(/^ +/, "")
    sub(/ +$/, "")
    if ($0 == "" || $1 == "%%" || $1 == "stateDiagram-v2" || $1 == "flowchart" || $1 == "direction") return
    if (drawn == "crates") house()
    else if ($2 == "-->") arrows()
    else have($0)
}

# An arrow between states: an event for each part of its label. A reply that says neither right nor wrong is both.
function arrows(    label, tail, n, i, what) {
    label = $0
    sub(/^[^:]*: /, "", label)
    tail = match(label, / \/ .*/) ? substr(label, RSTART) : ""
    n = split(substr(label, 1, length(label) - length(tail)), what, ", ")
    for (i = 1; i <= n; i++)
        if (what[i] in either) {
            have($1 " --> " $3 " : " what[i] " (right)" tail)
            have($1 " --> " $3 " : " what[i] " (wrong)" tail)
        } else have($1 " --> " $3 " : " what[i] tail)
}

# A line of the house: a box whose text starts with its name, or a crate with an arrow to each that it stands on.
function house(    i, name) {
    if ($2 == "-->") {
        box[$1]
        for (i = 3; i <= NF; i++) if ($i != "&") { box[$i]; have($1 " --> " $i) }
        return
    }
    name = $0
    if (sub(/[[(].*/, "", name) && index($0, "\"" name)) box[name]
    else have($0)
}

function have(text) { got[drawn, text]++ }

# What is missing in the pictures of the file that was read, and what is too many.
function leave(    key, part, bad, i, names) {
    if (nth < 4) return
    for (key in box) got["crates", key] = 1
    for (key in want) {
        split(key, part, SUBSEP)
        if ((part[1] in shown) && !(key in got)) bad = tell("missing", part)
    }
    for (key in got) {
        split(key, part, SUBSEP)
        if (!(key in want)) bad = tell("too many", part)
        else if (got[key] > 1) bad = tell("more than once", part)
    }
    for (i = 1; i <= pictures; i++) if (picture[i] in shown) names = names " " picture[i]
    if (names == "") { print file ": no picture"; bad = 1 }
    if (bad) differs = 1
    else print file ": agrees with the tables and crates.txt:" names
    split("", got); split("", box); split("", shown)
}

function tell(what, part) {
    print file ": " part[1] ": " what ": " part[2]
    return 1
}
' crates/machine/stdout crates.txt crates/phoneline/stdout "$@"
