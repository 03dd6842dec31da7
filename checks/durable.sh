#!/usr/bin/env bash
# What is durable when, by the calls that strace sees: a restore before its control file has its name, the files of a backup before it is
# listed, each by one sync of the file system where that is believed, and else by the handle that wrote it. A late failure is reported.
. "$(dirname "$0")/common"
strace=(strace -f -qq -y -o calls)
if ! "${strace[@]}" true 2>/dev/null; then
    printf 'strace is not here: skipped\n'
    exit 77
fi
if [ "$(findmnt -no FSTYPE -T "$room")" != ext4 ]; then
    printf 'the folder for checks is not on ext4: skipped\n'
    exit 77
fi
traced=(-e trace=execve,openat,write,rename,unlink,fsync,syncfs)

# run STATUS WHAT WORD..: the program ends so under strace, with the options that `options` has.
options=()
run() {
    local status=0 wanted=$1 what=$2 lock=("--lock-path=$room/lock")
    shift 2
    [ "${!#}" != restore ] || lock=()
    "${strace[@]}" "${traced[@]}" "${options[@]}" "$top/bin/pgbackrest" --no-config --stanza=demo "${lock[@]}" "$@" \
        >output 2>&1 || status=$?
    [ "$status" = "$wanted" ] || complain "$what: status $status and not $wanted: $(cat output)"
}

# calls PATTERN: how many calls are so. (Where several processes call at once, the end of a call is in another line.)
calls() {
    grep -Ec "$1" calls || true
}

# The number of the first and the last line of calls that is so.
first() {
    grep -En -m 1 "$1" calls | cut -d: -f1
}

last() {
    grep -En "$1" calls | tail -n 1 | cut -d: -f1
}

# how many files and folders below a path were synced singly
singly() {
    calls "fsync\([0-9]*<$1[/>]"
}

control='rename\(".*/global/pg_control\.pgbackrest\.tmp", ".*/global/pg_control"'
mkdir held 'to here' b
printf '#!/bin/sh\nexit 0\n' >b/sync
chmod +x b/sync
chown -R "$(id -u)" pg
# (some files are enough: each call is looked at)
rm -r pg/base/4 pg/base/5 pg/pg_wal/0*
find pg/base/1 -type f -name '[0-9]*' | tail -n +20 | xargs rm
PATH=$room/b:$PATH
run 0 'a stanza' --repo1-path="$room/held/repo" --pg1-path="$room/pg" --no-online stanza-create

# The files of a backup are synced all at once, by the system's own program.
run 0 'a backup' --repo1-path="$room/held/repo" --pg1-path="$room/pg" --no-online --no-expire-auto backup
[ "$(calls 'syncfs\(.*\) += 0')" -ge 1 ] || complain 'the files of a backup are not synced at once'
[ "$(calls 'execve\("/[a-z/]*/sync", \[".*", "-f"')" = "$(calls 'syncfs\(')" ] || complain 'another program syncs'
[ "$(calls 'fsync\([0-9]*<.*/pg_data/base/1/')" = 0 ] || complain 'a file of a backup is synced singly'

# Where that fails, nothing is listed.
options=(-e inject=syncfs:error=EIO)
sleep 1.1
run 80 'a backup whose sync fails' --repo1-path="$room/held/repo" --pg1-path="$room/pg" --no-online --no-expire-auto --type=full backup
options=()
[ "$(grep -c '^2.*F=' held/repo/backup/demo/backup.info)" = 1 ] || complain 'a backup is listed whose sync failed'

# A restore: the old control file is removed first, all is on the disk before the new one has its name, and then that.
for way in swift each; do
    to="$room/to"
    [ "$way" = swift ] || to="$room/to here"
    restored=(--repo1-path="$room/held/repo" --pg1-path="$to" --type=none)
    rm -rf "$to"
    mkdir "$to"
    run 0 "a restore, $way" "${restored[@]}" restore
    at=$(last "$control")
    [ -n "$at" ] || complain "a restore, $way: the control file is not renamed"
    [ "$(last 'rename\(|write\([0-9]*<.*/to( here)?/')" = "$at" ] || complain "a restore, $way: the control file is not last"
    if [ "$way" = swift ]; then
        [ "$(last 'syncfs\(.*\) += 0')" -lt "$at" ] || complain "a restore, $way: no sync before the control file"
        [ "$(singly "$to")" = 1 ] || complain "a restore, $way: $(singly "$to") single syncs"
    else
        # (what a refused backup left in the repository is synced at once there)
        [ "$(calls 'execve\("[^"]*/sync", \[".*", "-f", ".*/to here"')" = 0 ] || complain "a restore, $way: it syncs at once"
        # each file, the control file under its other name, each folder, and that of the control file again
        nodes=$(find "$to" -type f -o -type d | wc -l)
        [ "$(singly "$to")" -gt "$nodes" ] || complain "a restore, $way: $(singly "$to") syncs of $nodes nodes"
    fi
    [ "$(last "fsync\([0-9]*<$to/global>")" -gt "$at" ] || complain "a restore, $way: its name is not synced"

    # over a folder that has one
    run 0 "over another, $way" "${restored[@]}" --delta restore
    away=$(first "unlink\(\"$to/global/pg_control\"")
    [ "$(first "fsync\([0-9]*<$to/global>")" -gt "$away" ] || complain "over another, $way: the old control file may come back"
    if [ "$way" = each ]; then
        [ "$(calls 'fsync\([0-9]*<.*/PG_VERSION>\)')" -ge 1 ] || complain 'a file that was kept is not synced'
    fi

    # A failure is reported, and then there is no control file.
    options=(-e inject=syncfs:error=EIO)
    [ "$way" = swift ] || options=(-e inject=fsync:error=EIO:when=20)
    rm -rf "$to"
    mkdir "$to"
    run 82 "a failing sync, $way" "${restored[@]}" restore
    options=()
    [ ! -e "$to/global/pg_control" ] || complain "a failing sync, $way: the control file has its name"
done

# Where a sync of all isn't believed, the handle that wrote each file of a backup syncs it; in a path with a blank it isn't.
mv held 'held here'
label=$(ls -d 'held here'/repo/backup/demo/*F | head -n 1)
sleep 1.1
run 0 'each file of a backup' --repo1-path="$room/held here/repo" --pg1-path="$room/pg" --no-online --no-expire-auto --type=full backup
[ "$(calls 'syncfs\(')" = 0 ] || complain 'each file of a backup: it syncs at once'
files=$(find "$label" -type f | wc -l)
[ "$(calls 'fsync\([0-9]*<.*/backup/demo/')" -ge "$files" ] || complain "of $files files $(calls 'fsync\(') are synced"
sleep 1.1
options=(-e inject=fsync:error=EIO:when=20)
run 80 'a file whose sync fails' --repo1-path="$room/held here/repo" --pg1-path="$room/pg" --no-online --no-expire-auto --type=full backup
options=()
mv 'held here' held

# The folder that holds a root which others made is synced once.
mkdir -p made/repo
run 0 'a stanza in a folder that is there' --repo1-path="$room/made/repo" --pg1-path="$room/pg" --no-online stanza-create
[ "$(calls 'fsync\([0-9]*<.*/made>')" = 1 ] || complain 'the folder that holds the root is not synced'

# One restore at a time.
rm -rf to
mkdir to
status=0
flock to "$top/bin/pgbackrest" --no-config --stanza=demo --repo1-path="$room/held/repo" --pg1-path="$room/to" --log-level-stderr=warn --type=none \
    restore >output 2>&1 || status=$?
[ "$status" = 82 ] && grep -q 'another restore works in the folder' output || complain "a second restore: $status: $(cat output)"
[ -z "$(ls to)" ] || complain 'a second restore wrote something'

# A server that is started while an offline backup reads.
head -c 300M /dev/urandom >pg/base/1/99999
sleep 1.1
before=$(ls -d held/repo/backup/demo/*F | wc -l)
"$top/bin/pgbackrest" --no-config --stanza=demo --lock-path="$room/lock" --repo1-path="$room/held/repo" --pg1-path="$room/pg" --no-online \
    --no-expire-auto --type=full --log-level-stderr=warn backup >output 2>&1 &
backup=$!
while [ "$(ls -d held/repo/backup/demo/*F | wc -l)" = "$before" ] && kill -0 $backup 2>/dev/null; do sleep 0.01; done
printf '%s\n' $$ >pg/postmaster.pid
status=0
wait $backup || status=$?
[ "$status" = 80 ] && grep -q 'a server was started in the data folder meanwhile' output || complain "a server meanwhile: $status: $(cat output)"
[ "$(grep -c '^2.*F=' held/repo/backup/demo/backup.info)" = 2 ] || complain 'a backup beside a server is listed'
exit "$wrong"
