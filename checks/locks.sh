#!/usr/bin/env bash
# The locks: one that another process holds is reported, one whose process was killed is free, and two pushes at once do no harm.
. "$(dirname "$0")/common"
if ! command -v flock >/dev/null; then
    printf 'flock is not here: skipped\n'
    exit 77
fi
ours=("$top/bin/pgbackrest" --stanza=demo --pg1-path="$room/pg" --repo1-path="$room/repo" --lock-path="$room/above/lock")
pusher=
trap '[ -z "$pusher" ] || kill -KILL "$pusher" || true; rm -rf "$room"' EXIT

program() {
    "${ours[@]}" "$@"
}

# A push holds the first, a stanza-create both.
of_push=demo-archive.lock
of_stanza=demo-backup.lock

held_line() {
    printf "ERROR: [020]: lock '%s' is held\n" "$1"
}

same_line() {
    printf 'WARN: %s is already in the archive with the same checksum\n' "$(basename "$1")"
}

# refused LOCK WORD..: the program reports that another process holds the lock, and writes nothing.
refused() {
    local before lock=$1
    shift
    before=$(find repo 2>/dev/null | LC_ALL=C sort)
    want 20 "$(held_line "$lock")
" "$@"
    [ "$(find repo 2>/dev/null | LC_ALL=C sort)" = "$before" ] || complain "$* changed the repository without its lock"
}

# beside_holder LOCK WORD..: the same, while this process holds it.
beside_holder() {
    {
        flock 9
        refused "$@" 9>&-
    } 9>>"above/lock/$1"
}

is_stored() {
    cmp -s "$1" "$(stored_at "$(basename "$1")" "$1")" || complain "$(basename "$1") isn't stored as it is"
}

make_segments 16 9

# A lock's file is made with its folders, and stays.
want 0 '' --no-online stanza-create
want 0 '' archive-push "$(segment 16)"
modes=$(stat -c "%n %a" above above/lock above/lock/* 2>&1) || true
[ "$modes" = "above 700
above/lock 700
above/lock/$of_push 600
above/lock/$of_stanza 600" ] || complain "the locks have the modes $modes"

# A lock that another process holds. A stanza-create takes both, a push its own alone.
beside_holder "$of_push" archive-push "$(segment 17)"
beside_holder "$of_stanza" --no-online stanza-create
beside_holder "$of_push" --no-online stanza-create
{
    flock 9
    want 0 '' archive-push "$(segment 17)" 9>&-
} 9>>"above/lock/$of_stanza"
is_stored "$(segment 17)"

# A push that is stopped in its middle keeps its lock, and loses it as it is killed. A segment of 256 MiB takes a while: its
# header states this size in the four bytes from the 33rd on.
large=$(segment 255)
{
    head -c 32 "$(segment 16)"
    printf '\0\0\0\020'
    head -c 8192 "$(segment 16)" | tail -c +37
} >"$large"
truncate -s 256M "$large"
program archive-push "$(segment 18)" >/dev/null
"${ours[@]}" archive-push "$large" >large.output 2>&1 &
pusher=$!
for _ in $(seq 10000); do
    if [ -n "$(find repo -name '*.pgbackrest.tmp' 2>/dev/null)" ] || ! kill -0 "$pusher" 2>/dev/null; then break; fi
done
kill -STOP "$pusher" || complain "the push of a large segment ended too soon: $(cat large.output)"
refused "$of_push" archive-push "$(segment 18)"
kill -KILL "$pusher" || true
wait "$pusher" 2>/dev/null || true
pusher=
[ ! -s large.output ] || complain "the push that was killed wrote '$(cat large.output)'"
want 0 "$(same_line "$(segment 18)")
" archive-push "$(segment 18)"
want 0 '' archive-push "$large"
is_stored "$large"
rm "$large"

# again STATUS OUTPUT SEGMENT: the push that ended so, made again.
again() {
    case $1-$2 in
    0-) want 0 "$(same_line "$3")
" archive-push "$3" ;;
    "20-$(held_line "$of_push")") want 0 '' archive-push "$3" ;;
    *) complain "a push beside another one ended with $1 and wrote '$2'" ;;
    esac
    is_stored "$3"
}

# Two pushes at once: one of them stores its segment, the other may find the lock held, and is made again.
for number in 19 21 23; do
    one=$(segment "$number")
    two=$(segment "$((number + 1))")
    status_one=0
    status_two=0
    program archive-push "$one" >one 2>&1 &
    first=$!
    program archive-push "$two" >two 2>&1 || status_two=$?
    wait "$first" || status_one=$?
    [ "$status_one" = 0 ] || [ "$status_two" = 0 ] || complain "two pushes at once ended with $status_one and $status_two"
    again "$status_one" "$(cat one)" "$one"
    again "$status_two" "$(cat two)" "$two"
done
[ -z "$(find repo -name '*.pgbackrest.tmp')" ] || complain 'a temporary file is left'
[ "$(find repo/archive/demo/15-1 -type f | wc -l)" = 10 ] || complain 'there are more or fewer files than segments'
exit "$wrong"
