#!/bin/sh
# Runs PROGRAM on each example, fails where a text differs from the one stored beside it, and shows
# some lines of each kind.
#   examples/demo.sh PROGRAM
set -eu
case ${1-} in -h | --help) sed -n '2,4s/^# *//p' "$0" && exit ;; esac
program=$1
here=$(dirname "$0")
out=$(mktemp -d)
trap 'rm -rf "$out"' EXIT

for file in "$here"/*.mrt; do
    name=$(basename "$file" .mrt)
    # The status is 1 where a record is reported.
    "$program" -m "$file" >"$out/$name.lines" 2>"$out/$name.reports" || test $? -eq 1
    cmp "$out/$name.lines" "$here/$name.lines"
    cmp "$out/$name.reports" "$here/$name.reports"
done

show() {
    echo
    echo "$1"
    shift
    "$@"
}
show "A table (examples/table.mrt):" head -n 3 "$out/table.lines"
show "A table of the old kind (examples/old-table.mrt):" head -n 3 "$out/old-table.lines"
show "Announcements (examples/updates.mrt):" grep -m 2 '|A|' "$out/updates.lines"
show "Withdrawals:" grep -m 2 '|W|' "$out/updates.lines"
show "A state change:" grep -m 1 '|STATE|' "$out/updates.lines"
show "Reports of faulty records (examples/damaged.mrt):" cat "$out/damaged.reports"
# The two last commands ask what the peer of AS 65536 has for an address during a hijack, and before.
printf 'goto 9\npeers\ngoto 20\nlookup 192.0.2.3 65536 198.51.100.1\nback 3\nlookup 192.0.2.3 65536 198.51.100.1\n' >"$out/script"
show "A script (for examples/incident.mrt):" cat "$out/script"
show "Its replies:" "$program" --play "$out/script" "$here/incident.mrt"
echo
echo "All lines and reports are those stored in examples/."
