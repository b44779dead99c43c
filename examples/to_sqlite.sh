#!/bin/sh
# Loads lines of `bgpdump -m` into a database of SQLite.
set -eu
export LC_ALL=C

help() {
    cat <<'TEXT'
Loads lines of `bgpdump -m` into a database of SQLite (package sqlite3), made if it isn't there.

    examples/to_sqlite.sh DATABASE COLLECTOR [LINES ..]

LINES are files in order of time, or - for standard input, which is read where no file is named.
Where times go back between files, or in one by more than a minute, a note tells.
After a fault none of their lines are there; those that are loaded twice are there twice. There are
two tables and a view:

routes  line, collector, kind, time, type (A, B or W), peer, peer_as, prefix, path, origin,
        next_hop, local_pref, med, communities, atomic, aggregator, and origin_as: the last number
        of the path, or empty where that is a set
states  line, collector, kind, time, peer, peer_as, old, new
held    each A and B of routes as line, collector, peer, peer_as, prefix, path, origin_as and since,
        with until, the time at which it ended, and ended_by: W, STATE (a lost session), A or B
        (another route); both are NULL where it lasts

A time is in seconds since 1970, of which datetime(time, 'unixepoch') makes text. `line` numbers all
lines in the order in which they were loaded.
TEXT
}

case ${1-} in -h | --help) help && exit ;; esac
if [ $# -lt 2 ]; then
    help >&2
    exit 2
fi
database=$1 collector=$2
shift 2
[ $# -gt 0 ] || set -- -
room=$(mktemp -d)
trap 'rm -rf "$room"' EXIT

sqlite3 -bail -list "$database" >"$room/last" <<'SQL'
create table if not exists routes (line integer primary key, collector, kind, time numeric, type,
    peer, peer_as integer, prefix, path, origin, next_hop, local_pref integer, med integer,
    communities, atomic, aggregator, origin_as integer);
create table if not exists states (line integer primary key, collector, kind, time numeric,
    peer, peer_as integer, old integer, new integer);
create view if not exists held as
with routes_and_next as (
    select *, lead(line) over later as next_line, lead(time) over later as next_time,
           lead(type) over later as next_type
    from routes window later as (partition by prefix, collector, peer, peer_as order by line))
select held.line, held.collector, held.peer, held.peer_as, prefix, path, origin_as, held.time as since,
       iif(lost.line < ifnull(next_line, lost.line + 1), lost.time, next_time) as until,
       iif(lost.line < ifnull(next_line, lost.line + 1), 'STATE', next_type) as ended_by
from routes_and_next as held left join states as lost on lost.line = (
    select min(line) from states where states.collector = held.collector and states.peer = held.peer
    and states.peer_as = held.peer_as and states.line > held.line and old = 6 and new <> 6)
where held.type <> 'W';
select max(line) from (select max(line) as line from routes union all select max(line) from states);
SQL

# awk keeps the lines where all have been read and are whole. It looks for the first whose time goes
# back, except in tables: theirs may be those of the routes.
{ for file; do cat -- "$file" && printf '\nend of file\n' || exit; done && echo end; } |
    awk -F'|' -v OFS='|' -v collector="$collector" -v last="$(cat "$room/last")" \
        -v states="$room/states" -v finish="$room/finish" '
BEGIN { print "rollback;" >finish; close(finish); printf "" >states }
$0 == "" { next }
$0 == "end of file" { earliest = latest; next }
$0 == "end" { print "commit;" >finish; next }
{ line = last + NR }
$2 < earliest && $3 ~ /^(A|W|STATE)$/ && !noted { print "not in order of time: " $0 >"/dev/stderr"; noted = 1 }
{ if ($2 > latest) latest = $2; earliest = latest - 60 }
$3 == "STATE" && NF == 7 { print line, collector, $1, $2, $4, $5, $6, $7 >states; next }
$3 == "W" && NF == 6 { print line, collector, $0 "|||||||||"; next }
($3 == "A" || $3 == "B") && NF == 15 {
    count = split($7, path, " ")
    print line, collector, $0 (path[count] ~ /^[0-9]+$/ ? path[count] : "")
    next
}
{ gsub(/[^ -~]/, "?"); print "not a line of bgpdump -m: " substr($0, 1, 80) >"/dev/stderr"; exit 1 }
END { close(states); close(finish) }' | sqlite3 -bail -list -separator '|' "$database" 'begin' \
    '.import /dev/stdin routes' ".import '$room/states' states" '
create index if not exists routes_by_prefix on routes (prefix, collector, peer, peer_as, line);
create index if not exists states_by_peer on states (collector, peer, peer_as, line);' ".read '$room/finish'"
if ! grep -q commit "$room/finish"; then
    echo "nothing was loaded" >&2
    exit 1
fi
