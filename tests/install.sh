#!/bin/sh
# Installs into a temporary folder, and then uses only what is there: the example host is built against the installed
# header and library, and the installed program answers the session of the scope paper.
set -eu
cd "$(dirname "$0")/.."
root=$(mktemp -d)
trap 'rm -rf "$root"' EXIT
trap 'exit 1' HUP INT TERM

# a prefix beside DESTDIR shows that both are honoured
prefix=/opt/park
at=$root$prefix
make -s --no-print-directory install DESTDIR="$root" PREFIX="$prefix"
cat > "$root/wanted" <<'END'
./bin/parkline
./include/park.h
./lib/libpark.a
./share/man/man1/parkline.1
./share/man/man3/park_bad_field.3
./share/man/man3/park_step.3
END
(cd "$at" && find . -type f | LC_ALL=C sort) > "$root/found"
diff "$root/wanted" "$root/found"

"${CC:-cc}" -std=c99 -Wall -Wextra -Werror -O2 "-I$at/include" examples/c/host.c "-L$at/lib" -lpark -o "$root/host"
"$root/host" < examples/c/script.txt > "$root/answers"
diff examples/c/expected.txt "$root/answers"
"$at/bin/parkline" < crates/parkline/stdin > "$root/answers"
diff crates/parkline/stdout "$root/answers"

# these tools may warn and still end with 0, so whatever they say counts as a failure
lint() {
  if command -v groff > /dev/null; then
    { groff -t -man -ww -Tascii "$1" > /dev/null; } 2>&1
  elif command -v mandoc > /dev/null; then
    mandoc -T lint -W error "$1"
  elif command -v man > /dev/null; then
    { LC_ALL=C man --warnings -l "$1" > /dev/null; } 2>&1
  fi || echo "$1: refused"
}
lint "$at/share/man/man1/parkline.1" > "$root/warnings"
lint "$at/share/man/man3/park_step.3" >> "$root/warnings"
# this page is a reference to that one, which is looked for below the folder of the man pages
(cd "$at/share/man" && lint man3/park_bad_field.3) >> "$root/warnings"
diff /dev/null "$root/warnings"

echo "install: the six files are there, and the example host and parkline answer as expected from them"
