#!/usr/bin/env bash
# A stanza that is upgraded, with servers of PostgreSQL 15: the cluster that archives is carried over by pg_upgrade into another one, whose
# pushes are refused until stanza-upgrade, and then go on under the next id. An upgrade that is killed leaves the old stanza or the new
# one. The first backup after it is full. Backups of both clusters are restored, the old one beside the new server. Retention removes the
# old backup, and the old log with it.
. "$(dirname "$0")/server"

# The server starts this program by its name.
export PATH=$room:$PATH
trap 'for folder in one two; do
        [ ! -f "$room/$folder/postmaster.pid" ] || "${as[@]}" "$tools/pg_ctl" -D "$room/$folder" -m immediate stop >/dev/null || true
    done
    stop_server immediate || true; rm -rf "$room"' EXIT

system_of() {
    LC_ALL=C "$tools/pg_controldata" "$1" | sed -n 's/^Database system identifier: *//p'
}

count() {
    ask "select count(*) from $1"
}

# want_here: as want, outside of the data folder.
want_here() {
    (
        program() { "${as[@]}" "${ours[@]}" "$@"; }
        want "$@"
        exit "$wrong"
    ) || wrong=1
}

# back_up OPTION..: a backup, whose label is then in `label`.
back_up() {
    program --start-fast --no-expire-auto "$@" backup >output 2>errors || complain "the backup ended with $?: $(cat output errors)"
    label=$(sed -n 's/^INFO: new backup label = //p' output)
}

# The info files as they are.
members() {
    sha1sum repo/archive/demo/archive.info{,.copy} repo/backup/demo/backup.info{,.copy}
}

# stays WHAT: they are as they were kept.
stays() {
    members | cmp -s kept - || complain "$1 changed an info file"
}

up_to_date="INFO: stanza 'demo' is already up to date
"
upgraded="INFO: stanza 'demo' upgraded to 15-2
"

# The old cluster, with a backup. Neither its own server nor the one of another cluster upgrades it.
configure
printf 'pg1-socket-path=%s/socket\n' "$room" >>conf
want 0 '' stanza-create
start_server
old=$(system_of pg)
fill first
back_up --type=full
first=$label
fill second
switch >/dev/null
await
"$top/checks/cluster" "$room/new"
new=$(system_of new)
members >kept
want 0 "$up_to_date" stanza-upgrade
stays 'an upgrade to the same cluster'
want 47 "ERROR: [047]: control file has system $new, server has system $old
" --pg1-path="$room/new" stanza-upgrade
want 83 'ERROR: [083]: server connection failed
' --pg1-path="$room/new" --pg1-port=5433 stanza-upgrade
stays 'an upgrade that the server refuses'
stop_server fast

# The other cluster gets its tables, and takes its place.
mkdir run
chown --reference=pg run
carried=y
(cd run && "${as[@]}" "$tools/pg_upgrade" -b "$tools" -B "$tools" -d "$room/pg" -D "$room/new" -U postgres -s "$room/socket" >log 2>&1) || carried=n
if [ "$carried" = n ]; then printf 'pg_upgrade does not run here, so the new cluster begins without tables: %s\n' "$(tail -n 3 run/log)"; fi
mv pg old
mv new pg
configure
members >kept
mismatch="stanza has system $old version 15, data folder has system $new version 15"
want 23 "ERROR: [023]: $mismatch
" stanza-create

# An upgrade that is killed at some moment. Afterwards the old folder may push and the new one may not, or the other way round; the
# next upgrade completes it.
stored=$(cd repo/archive/demo/15-1/0000000100000000 && printf '%s\n' 00* | head -n 1 | cut -d- -f1)
mkdir before
cp -p repo/archive/demo/archive.info* repo/backup/demo/backup.info* before
as_before() {
    cp -p before/archive.info* repo/archive/demo
    cp -p before/backup.info* repo/backup/demo
}
answers() {
    local of_old=0 of_new=0
    "${as[@]}" "${ours[@]}" --pg1-path="$room/old" archive-push "pg_wal/$stored" >output 2>errors || of_old=$?
    "${as[@]}" "${ours[@]}" --pg1-path="$room/pg" archive-get "$stored" pg_wal/RECOVERYXLOG >output 2>errors || of_new=$?
    printf '%s %s' "$of_old" "$of_new"
}
[ "$(answers)" = '0 23' ] || complain "before the upgrade the answers are $(answers)"
states=
for moment in 0 0.002 0.004 0.006 0.008 0.01 0.012 0.015 0.02 0.03 0.05 1; do
    as_before
    "${as[@]}" "${ours[@]}" --no-online stanza-upgrade >output 2>errors &
    sleep "$moment"
    kill -9 $! 2>/dev/null || true
    wait $! 2>/dev/null || true
    found=$(answers)
    case $found in
    '0 23' | '23 1') states="$states$found," ;;
    *) complain "killed after $moment seconds, the answers are $found" ;;
    esac
    program --no-online stanza-upgrade >output 2>errors || complain "the upgrade after one that was killed ended with $?"
    printf '%s' "$upgraded" | cmp -s - output || printf '%s' "$up_to_date" | cmp -s - output || complain "it wrote '$(cat output)'"
    cmp -s repo/archive/demo/archive.info{,.copy} && cmp -s repo/backup/demo/backup.info{,.copy} || complain 'the members differ'
    [ "$(answers)" = '23 1' ] || complain "after the upgrade the answers are $(answers)"
done
case $states in
*'0 23,'*'23 1,'*) ;;
*) complain "no kill came before the upgrade, or none after it: $states" ;;
esac
want_here 0 '' verify
as_before
stays 'what is put back'

# The new server's pushes are refused, and it keeps its segments.
start_server
fill third
name=$(switch)
for _ in $(seq 120); do
    if [ "$(grep -c '^ERROR: \[023\]: ' pg/log)" -ge 3 ]; then break; fi
    sleep 0.5
done
grep -qF "ERROR: [023]: $mismatch" pg/log || complain "the server isn't told why: $(tail -n 5 pg/log)"
[ -f "pg/pg_wal/archive_status/$name.ready" ] || complain "the segment isn't kept"
stays 'a push that is refused'

# After the upgrade they succeed, under the next id.
want 0 "$upgraded" stanza-upgrade
want 0 "$up_to_date" stanza-upgrade
want 0 '' stanza-create
fill fourth
switch >/dev/null
await
compgen -G "repo/archive/demo/15-2/${name:0:16}/$name-*" >/dev/null || complain "$name isn't archived under the new id"
compgen -G "repo/archive/demo/15-1/${name:0:16}/$name-*" >/dev/null && complain "$name is archived under the old id"
want 0 '' verify

# The first backup is full, and the next one isn't.
back_up
second=$label
printf 'WARN: no prior backup exists, incr backup has been changed to full\nINFO: new backup label = %s\n' "$second" | cmp -s - output || complain "the first backup wrote '$(cat output)'"
back_up
[ "${label%_*}" = "$second" ] && [ "$(wc -l <output)" = 1 ] || complain "the next backup wrote '$(cat output)'"
third=$label
fill fifth
switch >/dev/null
await
program info >output
printf '    db (prior)\n    db (current)\n' | cmp -s - <(grep ' db (' output) || complain "the report has other clusters: $(cat output)"
grep -o 'backup: .*' output | cut -d' ' -f2 | cmp -s - <(printf '%s\n' "$first" "$second" "$third") || complain "the report has other backups: $(cat output)"
want 0 '' verify

# The old backup beside the new server: by a folder that is an argument, and by a configuration of its own.
start_copy() {
    printf "port = 5433\narchive_mode = off\n" >>"$1/postgresql.auto.conf"
    "${as[@]}" "$tools/pg_ctl" -D "$room/$1" -l "$room/$1/log" -t 120 -w start >/dev/null || complain "no copy starts: $(tail -n 5 "$1/log")"
}
ask_copy() {
    "${as[@]}" "$tools/psql" -h "$room/socket" -p 5433 -U postgres -AtXq -c "$1" 2>/dev/null || true
}
# check_copy FOLDER: the old cluster as it ended, from the old log; the new server's folder isn't touched.
check_copy() {
    for _ in $(seq 120); do
        if [ "$(ask_copy 'select pg_is_in_recovery()')" = f ]; then break; fi
        sleep 0.5
    done
    [ "$(ask_copy 'select count(*) from second')" = 20000 ] || complain "the copy in $1 lacks rows: $(tail -n 5 "$1/log")"
    [ -z "$(ask_copy "select oid from pg_class where relname = 'third'")" ] || complain "the copy in $1 has the new cluster's rows"
    [ "$(ask_copy 'select system_identifier from pg_control_system()')" = "$old" ] || complain "the copy in $1 is of another cluster"
    grep -q 'restored log file' "$1/log" || complain "the copy in $1 took nothing from the archive"
    "${as[@]}" "$tools/pg_ctl" -D "$room/$1" -m immediate -w stop >/dev/null || true
    find pg/pg_wal -name 'RECOVERY*' | grep . && complain "the new server's pg_wal was touched"
    grep -q '^ERROR: ' "$1/log" && complain "a fetch of the copy in $1 failed: $(grep '^ERROR: ' "$1/log")"
    return 0
}
for folder in one two; do
    mkdir "$folder"
    chown --reference=pg "$folder"
    chmod 700 "$folder"
done
sed "s#^pg1-path=.*#pg1-path=$room/two#" conf >own.conf
chmod 644 own.conf
want_here 0 "INFO: restored backup $first
" --pg1-path="$room/one" --set="$first" restore
grep -qF -- "--pg1-path=$room/one" one/postgresql.auto.conf || complain "the copy's folder isn't in: $(cat one/postgresql.auto.conf)"
start_copy one
check_copy one
ours[1]=--config=$room/own.conf
want_here 0 "INFO: restored backup $first
" --set="$first" restore
ours[1]=--config=$room/conf
grep -qF -- "--config=$room/own.conf" two/postgresql.auto.conf || complain "the copy's configuration isn't in: $(cat two/postgresql.auto.conf)"
start_copy two
check_copy two

# The new cluster is lost, and its last backup comes back.
rows=$(count fifth)
stop_server immediate
mv pg lost
mkdir pg
chown --reference=lost pg
chmod 700 pg
want_here 0 "INFO: restored backup $third
" restore
start_server
[ "$(count third) $(count fifth)" = "20000 $rows" ] || complain 'the new cluster lacks rows'
if [ "$carried" = y ]; then [ "$(count second)" = 20000 ] || complain 'the new cluster lacks rows of the old one'; fi
[ "$(system_of pg)" = "$new" ] || complain 'another cluster came back'
await
stop_server fast

# With the old cluster's last backup its log goes.
status=0
program --repo1-retention-full=1 expire >output 2>errors || status=$?
[ "$status" = 0 ] && [ "$(head -n 1 output)" = "INFO: expire backup $first" ] && grep -q '^INFO: removed [0-9]* archive files$' output || complain "the expiry ended with $status: $(cat output errors)"
find repo/archive/demo/15-1 -type f ! -name '*.history' | grep . && complain 'a file of the old log is left'
compgen -G "repo/archive/demo/15-2/*/*" >/dev/null || complain 'the new log is gone'
want_here 61 "ERROR: [061]: backup set '$first' does not exist
" --pg1-path="$room/one" --delta --set="$first" restore
want_here 0 '' verify
exit "$wrong"
