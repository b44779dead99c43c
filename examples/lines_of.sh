#!/bin/bash
# Writes the lines of many MRT files, compressed or not.
set -u

help() {
    cat <<'TEXT'
Writes the lines of MRT files (`bgpdump -m`), plain or compressed by gzip, bzip2, xz or zstd, as
their first octets tell.

    examples/lines_of.sh [--on HOST] OUT FILE ..

What FILE gives stands below OUT in a folder of its whole name from / on, which no other file has:
its lines in `lines`, and what was reported in `reports`. HOST is a machine that `ssh` reaches
without a password, and that has bgpdump: it gets the file as it is, unpacks it and sends the lines.

A file is passed over if its `lines` are there and newer than it. They are there once all of it was
read, even if records were reported. After a fault they aren't, and the next run tries the file
again: it can't be read or unpacked, the disk is full, memory ran out, HOST can't be reached, or the
run was ended. The status is then 1. A run that was killed may leave `part.` and `reports.` with a
number.
TEXT
}

unpacker() {
    case $(head -c 10 -- "$1" | od -An -v -tx1 | tr -d ' ') in
        1f8b*) echo zcat ;;
        425a68??314159265359) echo bzcat ;;
        fd377a585a00*) echo xzcat ;;
        28b52ffd*) echo zstdcat ;;
        *) echo cat ;;
    esac
}

# Runs an unpacker and bgpdump over standard input, on the host if there is one. That records are
# reported (1) is no fault, and neither is that the unpacker is ended by a pipe (141, SIGPIPE), since
# bgpdump doesn't read on behind a record that is too long.
lines() {
    local run="$1 | bgpdump -m -; of=(\${PIPESTATUS[@]}); "
    run+='((of[1] > 1)) && exit ${of[1]}; ((of[0] == 141)) || exit ${of[0]}'
    if [ -n "$host" ]; then
        ssh -o BatchMode=yes "$host" bash -c "$(printf %q "$run")"
    else
        bash -c "$run"
    fi
}

# Writes the files of a folder, under names of this run until they are whole.
write() {
    mkdir -p -- "$2" && rm -f -- "$2/lines" || return
    lines "$(unpacker "$1")" 2>"$2/reports.$$" >"$2/part.$$" <"$1"
    local status=$?
    mv -- "$2/reports.$$" "$2/reports"
    if [ $status = 0 ]; then
        mv -- "$2/part.$$" "$2/lines"
    else
        rm -f -- "$2/part.$$"
        return $status
    fi
}

host=
case ${1-} in
    -h | --help) help && exit ;;
    --on) host=${2-} && shift 2 ;;
esac
if [ $# -lt 2 ]; then
    help >&2
    exit 2
fi
out=$1 fault=0
shift
for file; do
    whole=$(realpath -e -- "$file") || { fault=1; continue; }
    folder=$out$whole
    if [ "$folder/lines" -nt "$whole" ]; then
        continue
    fi
    trap 'rm -f -- "$folder"/*.$$' EXIT
    write "$whole" "$folder" || { fault=1; echo "$file: not done; see $folder/reports" >&2; }
done
exit $fault
