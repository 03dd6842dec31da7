#!/usr/bin/env bash
# Servers of PostgreSQL 15 where something goes wrong: one that recovers stops where a segment can't be fetched, and later continues to
# the end; a standby waits; a copy that is restored next to the running server leaves that one alone; and backups of servers with
# timeouts, with their log elsewhere, and of one that says nothing.
. "$(dirname "$0")/server"

# The server starts this program by its name.
export PATH=$room:$PATH
stopped=
trap '[ -z "$stopped" ] || kill -CONT "$stopped" || true
    [ ! -f "$room/copy/postmaster.pid" ] || "${as[@]}" "$tools/pg_ctl" -D "$room/copy" -m immediate stop >/dev/null || true
    stop_server immediate || true; rm -rf "$room"' EXIT

# make_folder NAME: one of the server's user.
make_folder() {
    mkdir "$1"
    chown --reference=repo "$1"
    chmod 700 "$1"
}

# run_here WORD..: the program, with all but its status and what it writes.
run_here() {
    (cd "$room" && timeout 120 "${as[@]}" "${ours[@]}" "$@") >output 2>errors
}

# The timeline of the data folder, which a recovery that ends begins.
timeline() {
    LC_ALL=C "$tools/pg_controldata" pg | sed -n "s/^Latest checkpoint's TimeLineID: *//p"
}

in_recovery() {
    ask 'select pg_is_in_recovery()' 2>/dev/null || true
}

configure
printf "log_connections = on\nwal_retrieve_retry_interval = 500ms\n" >>pg/postgresql.conf
printf "[global:backup]\nrepo1-path=%s/repo\npg1-socket-path=%s/socket\n" "$room" "$room" >>conf
want 0 '' stanza-create
start_server
fill rows1
stop_server fast
program --no-online --type=full backup >output 2>errors || complain "the backup ended with $?: $(cat output errors)"
start_server
for table in 2 3 4; do
    fill "rows$table"
    last=$(switch)
done
await
stop_server immediate
mv pg lost
stored=$(compgen -G "repo/archive/demo/15-1/0000000100000000/$last-*")

make_folder pg
run_here restore || complain "the restore ended with $?: $(cat output errors)"

# stops WHAT: a server that recovers stops, and is no further than it was before.
stops() {
    : >pg/log
    "${as[@]}" "$tools/pg_ctl" -D "$room/pg" -l "$room/pg/log" -t 60 -W start >/dev/null || true
    # (before it has begun it has no such file either)
    for _ in $(seq 240); do
        sleep 0.5
        if grep -q -e 'database system is shut down' -e 'FATAL:  could not restore file' pg/log && [ ! -f pg/postmaster.pid ]; then break; fi
        if [ "$(in_recovery)" = f ]; then break; fi
    done
    if [ -f pg/postmaster.pid ]; then
        complain "with $1 the server goes on: $(tail -n 5 pg/log)"
        stop_server immediate
    fi
    grep -q 'FATAL:  could not restore file' pg/log || complain "with $1 the server doesn't say what it misses: $(tail -n 5 pg/log)"
    [ -f pg/recovery.signal ] || complain "with $1 the server takes its recovery for done"
    [ "$(timeline)" = 1 ] && [ ! -e pg/pg_wal/00000002.history ] || complain "with $1 the server begins another timeline"
}
mode=$(stat -c %a "$stored")
chmod 0 "$stored"
stops 'a segment that cannot be read'
chmod "$mode" "$stored"
chmod 0 repo/archive/demo/15-1
stops 'a log that cannot be read'
chmod 700 repo/archive/demo/15-1
mv repo away
make_folder repo
stops 'a repository that is not mounted'
rmdir repo 2>/dev/null || rm -r repo
mv away repo
cp -p "$stored" whole
printf 'other bytes' | dd of="$stored" bs=1 seek=9000 conv=notrunc status=none
stops 'a damaged segment'
cp -p whole "$stored"

# Now nothing is amiss, and it continues to the end.
start_server
for table in 1 2 3 4; do
    [ "$(ask "select count(*) from rows$table")" = 20000 ] || complain "rows$table lacks rows"
done
[ ! -f pg/recovery.signal ] || complain 'the server did not recover'
stop_server fast

# A standby takes the same for now, and asks again.
mv pg recovered
make_folder pg
run_here restore || complain "the restore of a standby ended with $?: $(cat output errors)"
mv pg/recovery.signal pg/standby.signal
chmod 0 "$stored"
"${as[@]}" "$tools/pg_ctl" -D "$room/pg" -l "$room/pg/log" -t 60 -w start >/dev/null || complain "no standby starts: $(tail -n 5 pg/log)"
for _ in $(seq 240); do
    if [ "$(grep -c '^ERROR: \[' pg/log)" -ge 3 ]; then break; fi
    sleep 0.5
done
[ "$(grep -c '^ERROR: \[' pg/log)" -ge 3 ] || complain "a standby doesn't ask again: $(tail -n 5 pg/log)"
[ "$(in_recovery)" = t ] || complain "a standby goes on, or stops: $(tail -n 5 pg/log)"
chmod "$mode" "$stored"
for _ in $(seq 240); do
    if [ "$(ask 'select count(*) from rows4' 2>/dev/null)" = 20000 ]; then break; fi
    sleep 0.5
done
[ "$(ask 'select count(*) from rows4' 2>/dev/null)" = 20000 ] || complain "a standby doesn't go on: $(tail -n 5 pg/log)"
stop_server immediate
rm -rf pg
mv recovered pg

# A copy, restored in another folder next to the running server by relative paths.
start_server
fill rows5
switch >/dev/null
await
make_folder copy
make_folder beside
(cd "$room" && timeout 120 "${as[@]}" "$room/pgbackrest" --config=conf --pg1-path=copy --stanza=demo restore) >output 2>errors ||
    complain "the restore of a copy ended with $?: $(cat output errors)"
"${as[@]}" "$tools/pg_ctl" -D "$room/copy" -l "$room/copy/log" -t 60 -w -o "-k $room/beside" start >/dev/null ||
    complain "no server starts from the copy: $(tail -n 5 copy/log)"
ask_copy() {
    "${as[@]}" "$tools/psql" -h "$room/beside" -U postgres -AtXq -c "$1" 2>/dev/null || true
}
for _ in $(seq 240); do
    if [ ! -f copy/postmaster.pid ] || [ "$(ask_copy 'select pg_is_in_recovery()')" = f ]; then break; fi
    sleep 0.5
done
[ "$(ask_copy 'select count(*) from rows5')" = 20000 ] || complain "the copy lacks rows: $(tail -n 5 copy/log)"
# What it has to archive isn't the stanza's.
for _ in $(seq 240); do
    if grep -q '\[032\]: working directory is not the same' copy/log; then break; fi
    sleep 0.5
done
grep -q '\[032\]: working directory is not the same' copy/log || complain 'the copy archives, or is not refused'
[ -z "$(find repo -name '00000003*')" ] || complain 'the copy archived a file of its own'
"${as[@]}" "$tools/pg_ctl" -D "$room/copy" -m immediate stop >/dev/null || true
[ -z "$(find pg/pg_wal -name 'RECOVERY*')" ] || complain "the copy's recovery wrote into the server's own log"
[ "$(ask 'select count(*) from rows5')" = 20000 ] || complain 'the server beside the copy lacks rows'

# back_up WHAT WORD..: a backup of the running server.
back_up() {
    local what=$1
    shift
    run_here --start-fast --type=full "$@" backup || complain "$what ended with $?: $(cat output errors)"
    label=$(sed -n 's/^INFO: new backup label = //p' output)
}

# Settings that would end its session.
ask "alter role postgres set statement_timeout = '1ms'; alter role postgres set idle_session_timeout = '20ms'"
back_up 'a backup of a server with timeouts'
PGOPTIONS='-c statement_timeout=0 -c idle_session_timeout=0' ask 'alter role postgres reset all'
grep -q 'connection authorized: .*application_name=pgbackrest' pg/log || complain 'the session of a backup has no name'

# A socket that isn't that of the data folder's user.
if [ "$(id -u)" = 0 ]; then
    chown 1 socket/.s.PGSQL.5432
    status=0
    run_here --online --pg1-socket-path="$room/socket" stanza-create || status=$?
    [ "$status" = 83 ] || complain "a socket of another user: $status: $(cat output)"
    chown --reference=pg socket/.s.PGSQL.5432
fi

# The wait for the next second goes by the data folder's clock too: its first four looks at the time of a file there are told one long ago, and
# it looks again.
if strace -qq -o calls true 2>/dev/null; then
    # (the bytes of struct statx, up to the time of the last change)
    long_ago=$(perl -e 'print unpack "H*", pack("L<L<Q<L<L<L<S<S<Q<Q<Q<Q<", 0xfff, 4096, 0, 1, 0, 0, 0100600, 0, 1, 0, 0, 0)
        . pack("q<L<L<", 1000000000, 5, 0) x 4')
    touched=$room/pg/pgsql_tmp.pgbackrest
    status=0
    (cd "$room" && timeout 120 strace -qq -y -o calls -P "$touched" -e trace=openat,statx -e inject=statx:poke_exit=@arg5="$long_ago":when=1..4 \
        "${as[@]}" "${ours[@]}" --start-fast --type=full backup) >output 2>&1 || status=$?
    [ "$status" = 0 ] || complain "a backup by another clock ended with $status: $(cat output)"
    [ "$(grep -c '^openat(.*O_CREAT' calls)" -ge 5 ] || complain "a backup doesn't wait by the data folder's clock: $(cat calls)"
    [ ! -e "$touched" ] || complain 'the file whose time is looked at stays'
else
    printf 'strace is not here: the wait by another clock is skipped\n'
fi

# What it waits for.
back_up 'a backup that says what it does' --log-level-stderr=info
for phase in 'waiting for the checkpoint' 'waiting for segment [0-9A-F]\{24\}'; do
    grep -q "$phase" errors || complain "a backup doesn't say '$phase': $(cat errors)"
done

# A folder that only the system reads, and a log that is elsewhere.
make_folder pg/pg_wal/lost+found
chmod 0 pg/pg_wal/lost+found
back_up 'a backup beside a folder that cannot be read'
rmdir pg/pg_wal/lost+found
stop_server fast
mv pg/pg_wal log
ln -s "$room/log" pg/pg_wal
start_server
back_up 'a backup of a server whose log is elsewhere'
grep -q '^pg_data/pg_wal/.*={' "repo/backup/demo/$label/backup.manifest" && complain 'a backup has files of a log that is elsewhere'
make_folder restored
run_here --pg1-path="$room/restored" restore || complain "the restore without a log ended with $?: $(cat output errors)"
[ -d restored/pg_wal ] && [ ! -L restored/pg_wal ] || complain 'a restored folder has no place for its log'

# A server that takes connections and says nothing. What it keeps waiting keeps no push waiting for longer.
stopped=$(head -n 1 pg/postmaster.pid)
kill -STOP "$stopped"
began=$SECONDS
status=0
run_here --online --pg1-socket-path="$room/socket" --db-timeout=2 stanza-create || status=$?
[ "$status" = 83 ] && [ "$(cat output)" = 'ERROR: [083]: server connection failed' ] ||
    complain "a server that says nothing: $status: $(cat output)"
[ $((SECONDS - began)) -lt 20 ] || complain "a server that says nothing was waited for $((SECONDS - began)) seconds"
status=0
run_here --start-fast --db-timeout=2 backup || status=$?
[ "$status" = 83 ] || complain "a backup of a server that says nothing: $status: $(cat output)"
(cd "$room" && timeout 60 "${as[@]}" "${ours[@]}" --online --pg1-socket-path="$room/socket" --db-timeout=6 stanza-create) >asked 2>&1 &
asking=$!
for _ in $(seq 600); do
    if is_locked lock/demo-archive.lock; then break; fi
    sleep 0.05
done
refused=0
for _ in $(seq 300); do
    status=0
    program archive-push "pg_wal/$(cd log && printf '%s\n' 0* | head -n 1)" >output 2>errors || status=$?
    if [ "$status" != 20 ]; then break; fi
    refused=$((refused + 1))
    sleep 0.1
done
[ "$refused" -ge 1 ] || complain "stanza-create held no lock: $(cat asked)"
[ "$status" = 0 ] || complain "a push behind a server that says nothing ended with $status: $(cat output)"
status=0
wait "$asking" || status=$?
[ "$status" = 83 ] || complain "stanza-create beside a push ended with $status: $(cat asked)"
kill -CONT "$stopped"
stopped=
stop_server fast
exit "$wrong"
