#!/usr/bin/env bash
# expire of three backups and a log: exactly what the rules expire is reported and is gone, the backup that is left is restored as it was, and an
# expiry that is killed is completed by the next. The same after a backup. A backup of a stopped server has no part of the log, so the list is given some here.
. "$(dirname "$0")/common"

# (restore and info take no lock, and refuse its option)
program() {
    local word lock=(--lock-path="$room/lock")
    for word in "$@"; do
        case $word in info | restore) lock=() ;; esac
    done
    "$top/bin/pgbackrest" --stanza=demo --repo1-path="$room/repo" "${lock[@]}" "$@"
}

back_up() {
    program --pg1-path="$room/pg" --no-online --type=full "$@" backup >output || complain "the backup ended with $?"
    label=$(sed -n 's/^INFO: new backup label = //p' output)
}

# The files of a folder, each after its sum. (The note of synced folders may be any.)
list() {
    (cd "$1" && find . -type f ! -name settled.note -exec sha1sum {} + | LC_ALL=C sort)
}

# span LABEL FROM TO: this is the backup's part of the log, by the numbers of its segments.
span() {
    local file from to
    from=$(basename "$(segment "$2")")
    to=$(basename "$(segment "$3")")
    for file in repo/backup/demo/backup.info repo/backup/demo/backup.info.copy; do
        sed -i "/^$1=/s/\"backup-archive-start\":null,\"backup-archive-stop\":null/\"backup-archive-start\":\"$from\",\"backup-archive-stop\":\"$to\"/" "$file"
        renew "$file"
    done
}

# logged NUMBER..: exactly these segments are stored, and the history of a timeline.
logged() {
    local number
    for number in "$@"; do basename "$(segment "$number")"; done >wanted
    find repo/archive/demo/15-1/0000000100000000 -type f | sed 's,.*/,,; s/-.*//' | LC_ALL=C sort | cmp -s wanted - || complain "other segments are stored than $*"
    [ -f repo/archive/demo/15-1/00000002.history ] || complain 'the history of a timeline is gone'
}

# listed LABEL..: exactly these backups are listed, and exactly they have folders.
listed() {
    printf '%s\n' "$@" >wanted
    program info | sed -n 's/^ *full backup: //p' | cmp -s wanted - || complain "other backups are listed than $*"
    find repo/backup/demo -mindepth 1 -maxdepth 1 -type d -printf '%f\n' | LC_ALL=C sort | cmp -s wanted - || complain "there are folders of others than $*"
}

# again: the repository as it was before an expiry.
again() {
    rm -rf repo
    cp -a whole repo
}

want 0 '' --pg1-path="$room/pg" --no-online stanza-create
want 0 '' expire
make_segments 16 5
printf '1\t0/13000000\tno recovery target specified\n' >pg/pg_wal/00000002.history
for file in "$(segment 16)" "$(segment 17)" "$(segment 18)" "$(segment 19)" "$(segment 20)" "$room/pg/pg_wal/00000002.history"; do
    want 0 '' --pg1-path="$room/pg" archive-push "$file"
    rm "$file"
done
back_up
first=$label
back_up
second=$label
printf '# more\n' >>pg/postgresql.auto.conf
cp -a pg kept
# What a server makes anew isn't backed up.
rm -f kept/pg_subtrans/* kept/pg_notify/*
back_up
third=$label
cp -a repo whole

# Without a rule nothing that is listed goes. What a stopped backup left does, and no other folder.
list repo >before
mkdir -p repo/backup/demo/20200101-000000F
cp -a "repo/backup/demo/$label/pg_data" repo/backup/demo/20200101-000000F
want 0 '' expire
list repo | cmp -s before - || complain 'an expiry without a rule changed what is listed'
listed "$first" "$second" "$label"

# Backups alone: of the current cluster the log stays where none of them has a part of it.
want 0 "INFO: expire backup $first
INFO: expire backup $second
" --repo1-retention-full=1 expire
listed "$label"
logged 16 17 18 19 20

# Backups with parts of the log.
again
span "$first" 16 16
span "$second" 17 17
span "$label" 19 19
rm -rf whole
cp -a repo whole
want 0 '' --repo1-retention-full=3 expire
want 0 '' --repo1-retention-full=1 --repo1-retention-full-type=time expire
listed "$first" "$second" "$label"
logged 16 17 18 19 20
want 0 "INFO: expire backup $first
INFO: removed 1 archive files
" --repo1-retention-full=2 expire
listed "$second" "$label"
logged 17 18 19 20
again
want 0 "INFO: expire backup $first
INFO: removed 2 archive files
" --repo1-retention-full=2 --repo1-retention-archive=1 expire
logged 17 19 20
again
want 0 "INFO: expire backup $first
INFO: expire backup $second
INFO: removed 3 archive files
" --repo1-retention-full=1 expire
listed "$label"
logged 19 20
list repo >after
want 0 '' --repo1-retention-full=1 expire
list repo | cmp -s after - || complain 'a second expiry changed something'

# The backup that is left.
want 0 "INFO: restored backup $label
" --pg1-path="$room/restored" --type=none restore
(cd kept && find . -type f -exec sha1sum {} + | LC_ALL=C sort) >wanted
(cd restored && find . -type f -exec sha1sum {} + | LC_ALL=C sort) | cmp -s wanted - || complain 'the backup that is left is restored as another'

# An expiry that is killed at some moment: the backup that stays has its bytes, and the next expiry removes the rest.
list "whole/backup/demo/$label" >bytes
for moment in 0.005 0.01 0.02 0.03 0.05 0.08; do
    again
    program --repo1-retention-full=1 expire >output 2>errors &
    sleep "$moment"
    kill_program
    wait $! 2>/dev/null || true
    list "repo/backup/demo/$label" | cmp -s bytes - || complain "killed after $moment seconds, the backup that stays has other bytes"
    program info | grep "full backup: $label" >/dev/null || complain "killed after $moment seconds, the backup that stays isn't listed"
    program --repo1-retention-full=1 expire >output 2>errors || complain "the expiry after one that was killed ended with $?"
    list repo | cmp -s after - || complain "after a kill at $moment seconds the next expiry left something else: $(list repo | diff after - | head -n 3)"
done

# Behind a backup: its line comes first, and it is what is left.
again
back_up --repo1-retention-full=2
printf 'INFO: new backup label = %s\nINFO: expire backup %s\nINFO: expire backup %s\n' "$label" "$first" "$second" | cmp -s - output || complain "a backup with an expiry behind it prints $(cat output)"
listed "$third" "$label"
logged 16 17 18 19 20
back_up --repo1-retention-full=1 --no-expire-auto
[ "$(wc -l <output)" = 1 ] || complain "a backup without an expiry behind it prints $(cat output)"

# A lock that is held, and no stanza.
if command -v flock >/dev/null; then
    flock lock/demo-backup.lock "$top/bin/pgbackrest" --stanza=demo --repo1-path="$room/repo" --lock-path="$room/lock" expire >output && complain 'an expiry ran while its lock was held'
    grep -qx "ERROR: \[020\]: lock 'demo-backup.lock' is held" output || complain "a held lock is told as $(cat output)"
fi
rm -r repo
want 21 "ERROR: [021]: stanza 'demo' does not exist
" expire
exit "$wrong"
