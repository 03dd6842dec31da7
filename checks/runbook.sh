#!/usr/bin/env bash
# docs/RUNBOOK.md, as an administrator types it: each of its cases that one machine can show, with servers, block by block. Changed are the
# paths, ports, labels and times, how long is waited, the ballast's size, and whose folders are made.
. "$(dirname "$0")/typed"
page=docs/RUNBOOK.md

# typed STATUS HEADING NUMBER [SED]
typed() {
    printf -- '-- %s, %s\n' "$2" "$3"
    type_in "$1" "$page" "${@:2}"
}

# has WORD [FILE]: the output has it.
has() {
    grep -q -e "$1" "${2:-output}" || complain "no '$1' in: $(cat "${2:-output}")"
}

program() {
    as_user "$room/bin/pgbackrest" --stanza=main "$@"
}

rows() {
    [ "$(ask 'select count(*) from orders')" = "$1" ] || complain "orders has $(ask 'select count(*) from orders') rows and not $1: $2"
}

last_label() {
    program info | sed -n 's/^.* backup: //p' | tail -n 1
}

start() {
    as_user systemctl start postgresql@16-main
    await_writes
}

repo=srv/pgbackrest/repo
block README.md 'Configure' 1 >conf
here <"$top/contrib/beside.conf" >beside.conf
block README.md 'Configure' 2 >>etc/main/postgresql.conf
printf 'archive_timeout = 0\n' >>etc/main/postgresql.conf
typed 0 'Move from pgBackRest' 1
start
ask 'create table orders as select generate_series(1, 100) as n' >/dev/null
program stanza-create || complain 'no stanza'
program backup >output 2>errors || complain "no backup: $(cat output errors)"
first=$(last_label)
sleep 1.1
early=$(ask 'select now()')

chmod 500 $repo/archive/main/*/0*
ask 'create table other as select 1; select pg_switch_wal()' >/dev/null
sleep 2
typed 80 'Archiving is stuck' 1
has 'ERROR: \[080\]'
chmod 700 $repo/archive/main/*/0*
typed 0 'Archiving is stuck' 2 's/sleep 60/sleep 1/'
for try in $(seq 90); do
    if [ -z "$(find data/main/pg_wal/archive_status -name '*.ready')" ]; then break; fi
    sleep 1
done
[ "$try" -lt 90 ] || complain "archiving doesn't go on"

# A backup whose log isn't archived in time leaves its files.
typed 0 'Pause backups and pushes' 2 's/sleep 3600/sleep 10/'
sleep 1
program --archive-timeout=2 --type=full backup >output 2>errors && complain 'a backup without its log'
has 'ERROR: \[042\]'
typed 0 "The repository's disk is full" 4
[ "$(wc -l <output)" = 1 ] && [ -d "$(cat output)" ] || complain "the folders that aren't listed: $(cat output)"
folder=$(cat output)
mv $repo/backup/main/backup.info kept.info
typed 0 "The repository's disk is full" 4
[ "$(cat output)" = "$folder" ] || complain "the folders that aren't listed, by the copy of the list: $(cat output)"
mv $repo/backup/main/backup.info.copy kept.copy
typed 0 "The repository's disk is full" 4
[ "$(cat output)" = 'refused: look why' ] || complain "folders without a list: $(cat output)"
mv kept.info $repo/backup/main/backup.info
mv kept.copy $repo/backup/main/backup.info.copy
sleep 10
typed 0 "The repository's disk is full" 5 's/200M/2M/'
typed 0 "The repository's disk is full" 1
[ ! -e "$folder" ] && [ ! -e srv/pgbackrest/ballast ] || complain 'the folder of a failed backup stays, or the ballast'
as_user touch "$room/$repo/archive/main/15-1/left.pgbackrest.tmp"
typed 0 "The repository's disk is full" 2
[ ! -e $repo/archive/main/15-1/left.pgbackrest.tmp ] || complain 'what an unfinished push left stays'
typed 0 "The repository's disk is full" 3
typed 0 'Pause backups and pushes' 1 's/sleep 3600/sleep 5/'
sleep 1
program backup >output 2>errors && complain 'a backup beside the lock'
has 'ERROR: \[020\]'
sleep 5

# A process that holds the stanza's folder, as one with another lock path does.
if command -v fuser >/dev/null; then
    (as_user flock "$room/$repo/backup/main" sleep 600) &
    sleep 1
    program expire >output 2>errors && complain 'an expiry beside the held folder'
    has 'ERROR: \[020\]'
    typed 0 'A command hangs, or 20 stays' 1
    has 'flock' errors
    typed 0 'A command hangs, or 20 stays' 2 "s/PID/$(tr -s ' \n' ' ' <output)/"
    wait
    for try in $(seq 100); do
        fuser -s "$room/$repo/backup/main" || break
        sleep 0.1
    done
    typed 0 'A command hangs, or 20 stays' 3
fi

typed 0 "The server's disk is full" 1
await_writes
typed 0 "The server's disk is full" 2
[ -L data/main/pg_wal ] && [ ! -e data/main/pg_wal.old ] || complain "pg_wal wasn't moved"
rows 100 'pg_wal as a link'
program backup >output 2>errors || complain "a backup with pg_wal as a link: $(cat output)"

# What isn't archived comes back from pg_wal.
(as_user flock "$room/srv/pgbackrest/lock/main-archive.lock" sleep 12) &
sleep 1
ask 'insert into orders select generate_series(101, 200)' >/dev/null
typed 0 'The server is lost' 1
wait
await_writes
rows 200 'pg_wal was lost'
has 'archive recovery complete' data/log
newest=$(sed -n 's#^.* min/max .*/##p' output)
served=$(sed -n 's/^.*restored log file "\([0-9A-F]\{24\}\)".*/\1/p' data/log | tail -n 1)
[ -n "$newest" ] && [ ! "$served" \< "$newest" ] || complain "the recovery ended with '$served', the archive with '$newest'"
for status in 0 1 80; do
    ended=0
    as_user sh -c "p() { return $status; }; $(block $page 'The server is lost' 3 | sed "s/^restore_command = '\(.*\)'\$/\1/; s#^[^;]*;#p;#; s/exit/return/; s/^/f() { /; s/\$/; }; f/")" || ended=$?
    [ "$ended" = "$((status > 1 ? 126 : status))" ] || complain "the restore_command makes $ended of $status"
done
switch
# By itself that WAL isn't archived; pushed from the old folder it is.
ready=$(ls data/lost/pg_wal/archive_status | sed -n 's/\.ready$//p')
[ -n "$ready" ] || complain 'the old folder has nothing that was not archived'
is_stored() { compgen -G "$repo/archive/main/*/${1:0:16}/$1-*" >/dev/null; }
for name in $ready; do
    if is_stored "$name"; then complain "$name is archived by itself, and RUNBOOK says that it isn't"; fi
done
typed 0 'The server is lost' 2
for name in $ready; do is_stored "$name" || complain "$name isn't archived"; done
[ ! -e data/lost ] || complain 'the old folder is there'
rm -r srv/more
second=$(last_label)

# on_copy QUESTION
on_copy() {
    as_user "$tools/psql" -h "$room/srv/restore" -p 5433 -d postgres -AtXq -c "$1"
}
# until_there ANSWER QUESTION: waits for this answer of the copy.
until_there() {
    local try
    for try in $(seq 120); do
        if [ "$(on_copy "$2" 2>/dev/null)" = "$1" ]; then return; fi
        sleep 0.5
    done
    complain "the copy doesn't answer $1 to $2: $(tail -n 5 srv/restore/log)"
}
# A stored file is lost: the restore ends with 56, verify names it, and an older backup recovers to the same end.
stored=$(cd $repo && find "backup/main/$second/pg_data/base" -type f -print -quit)
mv "$repo/$stored" kept.file
program --pg1-path="$room/srv/restore/main" restore >output 2>errors && complain 'a restore without a stored file'
has 'ERROR: \[056\]'
program verify >output 2>errors && complain 'verify without a stored file'
has "^$stored: absent\$"
as_user "$room/bin/pgbackrest" --stanza=main --pg1-path="$room/srv/restore/main" --delta --set="$first" restore >output 2>errors ||
    program --pg1-path="$room/srv/restore/other" --set="$first" restore >output 2>errors || complain "an older backup: $(cat output errors)"
mv kept.file "$repo/$stored"
rm -r srv/restore
typed 0 'Restore beside production' 1
until_there 'f|200' 'select pg_is_in_recovery(), count(*) from orders'
[ "$(on_copy 'show archive_mode')" = off ] || complain 'the copy archives'
ask 'insert into orders values (201)' >/dev/null
rows 201 'beside a copy'
find data/main/pg_wal -name 'RECOVERY*' | grep . && complain "production's pg_wal was touched"
typed 0 'Restore beside production' 2

target=$(ask 'select now()')
sleep 1
ask 'drop table orders' >/dev/null
typed 0 'A table was dropped' 1
has "$second"
switch
typed 0 'A table was dropped' 2 "s/2026[^\"]*/$target/"
grep "^INFO: restored backup $second\$" output >/dev/null || complain "another backup was chosen: $(cat output)"
until_there 201 'select count(*) from orders'
sleep 1
typed 0 'A table was dropped' 3
rows 201 'the table was carried over'
[ ! -e srv/restore/main ] || complain 'the copy stays'

# It is dropped again, and found by its position. Then the time before the server was lost, on its first timeline.
change='A change by its position, or on an earlier timeline'
segment=$(ask 'select pg_walfile_name(pg_current_wal_lsn())')
ask 'drop table orders' >/dev/null
typed 0 "$change" 1 "s/SEGMENT/$segment/"
dropped=$(sed -n 's/^.* lsn: \([^,]*\),.*COMMIT.*rels:.*/\1/p' output | tail -n 1)
[ -n "$dropped" ] || complain "no position of the drop: $(cat output)"
switch
typed 0 "$change" 2 "s#1/0301A2B8#$dropped#"
# (its last two lines: the settings of a copy, and the start)
typed 0 'Restore beside production' 1 '1,2d'
until_there 201 'select count(*) from orders'
has 'recovery stopping before WAL location' srv/restore/log
typed 0 'A table was dropped' 3
rows 201 'the table was carried over again'
typed 0 "$change" 3
has '00000002.history:1'
typed 0 "$change" 4 "s/2026[^\"]*/$early/"
has "^INFO: restored backup $first\$"
typed 0 'Restore beside production' 1 '1,2d'
until_there 100 'select count(*) from orders'
typed 0 'Restore beside production' 2

typed 0 'One older backup, and nothing after it' 1 "s/LABEL/$second/"
await_writes
rows 200 'the state of an older backup'
rm -r data/lost
switch

# The whole server goes back, to a time before its last change.
moment=$(ask 'select now()')
sleep 1
ask 'insert into orders values (202)' >/dev/null
rows 201 'a change that is taken back'
typed 0 'The whole server back to an earlier time' 1 "s/2026[^\"]*/$moment/"
await_writes
rows 200 'an earlier time'
has 'recovery stopping before commit' data/log
typed 0 'The whole server back to an earlier time' 2
[ "$(ask "select count(*) from pg_file_settings where name like 'recovery_target%'")" = 0 ] || complain 'a target is left'
rm -r data/lost
switch

# Another machine: first a standby, then one in the place of the first.
make_host "$room/second"
cp etc/main/* second/etc/main/
settings "$room/second" >>second/etc/main/postgresql.conf
chown -R --reference=data/main second/etc
sed "s#$room/data#$room/second/data#; s#$room/socket#$room/second/socket#" conf >second/conf
host=$room/second
typed 0 'A standby' 1 "s#host=primary.example user=replicator#host=$room/socket user=postgres#"
for try in $(seq 60); do
    if ask 'select status from pg_stat_wal_receiver' | grep -q streaming; then break; fi
    sleep 0.5
done
ask 'select status from pg_stat_wal_receiver' | grep -q streaming || complain "the standby doesn't stream: $(tail -n 5 second/data/log)"
typed 0 'A standby' 2
[ "$(ask 'select pg_is_in_recovery()')" = f ] || complain 'the standby is no server of its own'
# (its server and its folder are in the place of those that Debian's package makes)
typed 0 'Restore on another host' 1
rm -r second/data/fresh
typed 0 'Restore on another host' 2
await_writes
rows 200 'on another machine'
[ "$(ask 'show archive_mode')" = off ] || complain 'the other machine archives'
host=$room
as_user systemctl stop postgresql@16-main
host=$room/second
typed 0 'Restore on another host' 3
[ "$(ask 'show archive_mode')" = on ] || complain "the other machine doesn't archive"
switch
as_user systemctl stop postgresql@16-main
host=$room
# (from here on the first machine's folder is that of the second)
rm -r data/main
mv second/data/main data/main
start

if command -v rsync >/dev/null; then
    as_user mkdir "$room/mnt/copy"
    typed 0 'Copy the repository, and check the copy' 1
    # All info files are lost, and put back.
    rm $repo/archive/main/archive.info* $repo/backup/main/backup.info*
    program stanza-create >output 2>errors && complain 'a stanza over backups'
    has 'ERROR: \[029\]'
    typed 0 'Info files are lost or damaged (22, 24, 29, or 21 though the disk is mounted)' 1
    # The disk of the repository is lost, and the copy comes back.
    rm -r srv/pgbackrest/*
    typed 0 "The repository's disk is lost" 1 's/200M/2M/'
    typed 0 "The repository's disk is lost" 2
    [ "$(program info | grep -c ' backup: ')" -gt 1 ] || complain "the copy's backups aren't there: $(program info)"
fi
# It is lost, and there is no copy.
rm -r srv/pgbackrest/*
program verify >output 2>errors && complain 'a repository on a new disk'
has 'ERROR: \[021\]'
typed 0 "The repository's disk is lost" 1 's/200M/2M/'
typed 0 "The repository's disk is lost" 3
switch
program verify >output 2>errors || complain "the new repository: $(cat output)"
full=$(last_label)
rm $repo/archive/main/archive.info* $repo/backup/main/backup.info*
typed 0 'Info files are lost or damaged, and there is no copy' 1
typed 0 'Info files are lost or damaged, and there is no copy' 2 "s/LABEL/$full/"
# (its last two lines: the settings of a copy, and the start)
typed 0 'Restore beside production' 1 '1,2d'
until_there 'f|200' 'select pg_is_in_recovery(), count(*) from orders'
typed 0 'Restore beside production' 2

# pg_upgrade from 15 to 15, which makes another cluster as every upgrade does.
typed 0 'An upgrade of PostgreSQL' 1
grep '\.ready$' output && complain 'the old server has files that are not archived'
old=$(last_label)
mkdir data17
chown --reference=data/main data17
as_user "$tools/initdb" -D "$room/data17/main" -U postgres -A trust -E UTF8 --locale=C --no-sync >/dev/null
(cd data17 && "${as[@]}" "$tools/pg_upgrade" -b "$tools" -B "$tools" -d "$room/etc/main" -D "$room/data17/main" -U postgres -s "$room/socket" >output) ||
    complain "pg_upgrade: $(tail -n 5 data17/output)"
sed -i "s#$room/data/main#$room/data17/main#" etc/main/postgresql.conf
# (its first line, which changes a file of root's)
PATH=$room/bin:$PATH bash -ec "$(block $page 'An upgrade of PostgreSQL' 2 | sed -n "1s#/var/lib/postgresql/17/#$room/data17/#p")"
typed 0 'An upgrade of PostgreSQL' 2 1d
has "INFO: stanza 'main' upgraded to 15-2"
has 'WARN: no prior backup exists, incr backup has been changed to full'
has 'db (prior)'
rows 200 'after an upgrade'
[ "$(last_label)" != "$old" ] || complain 'no backup after the upgrade'
program verify >output 2>errors || complain "after the upgrade: $(cat output)"
typed 0 'An upgrade of PostgreSQL' 3 "s/LABEL/$old/"
typed 0 'Restore beside production' 1 '1,2d'
until_there 'f|200' 'select pg_is_in_recovery(), count(*) from orders'
find data17/main/pg_wal -name 'RECOVERY*' | grep . && complain "the new server's pg_wal was touched"
typed 0 'Restore beside production' 2

as_user "$room/bin/pgbackrest" --stanza=other --pg1-path="$room/data17/main" --pg1-socket-path="$room/socket" stanza-create >output 2>errors || complain "another stanza: $(cat output)"
typed 0 'Remove a stanza' 1
program info >output 2>errors && complain 'the removed stanza is there'
has 'ERROR: \[021\]'
[ ! -e $repo/backup/main ] && [ -e $repo/backup/other ] || complain 'the wrong folders were removed'
exit "$wrong"
