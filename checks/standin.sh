#!/usr/bin/env bash
# stanza-create with the program that stands in for a server: two programs on one socket.
. "$(dirname "$0")/room"
(cd "$top" && ./build test_standin)

# Makes what the commands read of a data folder: the head of a control file with this first byte, and a version.
make_data() {
    mkdir -p "$1/global"
    printf "\\x$2"'\x00\x00\x00\x00\x00\x00\x60\x14\x05\x00\x00\xff\xf5\x0e\x0c' >"$1/global/pg_control"
    printf '16\n' >"$1/PG_VERSION"
}

# beside STATUS OUTPUT WORD..: stanza-create ends so, and the stand-in succeeds, since its client ended the talk.
beside() {
    local status=0 wanted=$1 output=$2 other
    shift 2
    # It is empty before the stand-in runs, so nothing is read of the one before.
    : >ready
    "$top/bin/test_standin" "$room/.s.PGSQL.5432" >ready &
    other=$!
    for _ in $(seq 100); do
        if [ -s ready ]; then break; fi
        sleep 0.1
    done
    "$top/bin/pgbackrest" --stanza=demo --repo1-path=repo --lock-path=lock --pg1-socket-path="$room" "$@" stanza-create >output 2>errors || status=$?
    [ "$status" = "$wanted" ] || complain "$* ended with $status and not $wanted"
    printf '%s' "$output" | cmp -s - output || complain "$* wrote '$(cat output)'"
    [ ! -s errors ] || complain "$* wrote to standard error: $(cat errors)"
    wait "$other" || complain "the stand-in ended with $?"
    [ "$(cat ready)" = ready ] || complain "the stand-in wrote '$(cat ready)'"
}

make_data same 01
make_data other 02
beside 47 'ERROR: [047]: control file has system 6917529027641081858, server has system 6917529027641081857
' --pg1-path=other
[ -z "$(find repo -type f)" ] || complain 'files were written after a refusal'
for _ in 1 2; do
    beside 0 '' --pg1-path=same
    [ "$(find repo/archive repo/backup -type f | wc -l)" = 4 ] || complain 'the stanza is not made'
done
exit "$wrong"
