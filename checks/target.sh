#!/usr/bin/env bash
# Restores with targets, and the servers of PostgreSQL 15 that start from them: by the rows that are there, each type reaches its target,
# with it and before it, and nothing after it. A server pauses at its target, goes live or shuts down. A standby follows by archive-get
# alone, or streams by a setting of one's own. A cluster that was restored begins a timeline; that one and the one before are reached by
# their numbers, from a backup that lies on them, and not without their history. Targets of an earlier restore are out of force. Where a
# target is after the log's end, or the backup after the fork of the timeline, the server says so and doesn't start.
. "$(dirname "$0")/server"

# The server starts this program by its name.
export PATH=$room:$PATH
trap 'end_copy immediate || true; stop_server immediate || true; rm -rf "$room"' EXIT

end_copy() {
    if [ -f "$room/copy/postmaster.pid" ]; then
        "${as[@]}" "$tools/pg_ctl" -D "$room/copy" -m "$1" -t 60 -w stop >/dev/null
    fi
}

# make_folder NAME: one of the server's user.
make_folder() {
    mkdir "$1"
    chown --reference=repo "$1"
    chmod 700 "$1"
}

# back_up OPTION..: a backup of the running server, whose label is then in `label`.
back_up() {
    program --start-fast --no-expire-auto "$@" backup >output 2>errors || complain "the backup ended with $?: $(cat output errors)"
    label=$(sed -n 's/^INFO: new backup label = //p' output)
}

# stop_of LABEL: when this backup ended, as a target of time has it.
stop_of() {
    local second
    second=$(sed -n "s/^$1=.*\"backup-timestamp-stop\":\([0-9]*\),.*/\1/p" repo/backup/demo/backup.info)
    date -u -d "@$second" '+%Y-%m-%d %H:%M:%S+00'
}

# add ROW: the server gets this row, and the position is printed at which the log has the transaction's end.
add() {
    ask "insert into entries values ($1); select pg_current_wal_insert_lsn()"
}

# transaction_of ROW: the number of its transaction.
transaction_of() {
    ask "select xmin from entries where n = $1"
}

# moment_of ROW: when its transaction was committed.
moment_of() {
    ask "select to_char(pg_xact_commit_timestamp(xmin) at time zone 'UTC', 'YYYY-MM-DD HH24:MI:SS.US') || '+00' from entries where n = $1"
}

# restore STATUS OUTPUT OPTION..: a restore into a new folder `copy`.
restore() {
    local status=0 wanted=$1 output=$2
    shift 2
    end_copy immediate
    rm -rf copy
    make_folder copy
    "${as[@]}" "${ours[@]}" --pg1-path="$room/copy" "$@" restore >output 2>errors || status=$?
    [ "$status" = "$wanted" ] || complain "a restore with $* ended with $status and not $wanted"
    printf '%s' "$output" | cmp -s - output || complain "a restore with $* wrote '$(cat output)' and not '$output'"
    [ ! -s errors ] || complain "a restore with $* wrote to standard error: $(cat errors)"
}

# value_of SETTING: what the copy's server has of it.
value_of() {
    "${as[@]}" "$tools/postgres" -C "$1" -D "$room/copy"
}

ask_copy() {
    "${as[@]}" "$tools/psql" -h "$room/socket" -p 5433 -U postgres -AtXq -v ON_ERROR_STOP=1 -c "$1"
}

# Starts the server of the copy, which doesn't archive. Where it doesn't run then, its log says why.
start_copy() {
    "${as[@]}" "$tools/pg_ctl" -D "$room/copy" -l "$room/copy/log" -o '-p 5433 -c archive_mode=off' -t 60 -w start >/dev/null 2>&1 || true
}

# until_copy WHAT QUESTION ANSWER: waits until the server of the copy answers so.
until_copy() {
    local answer=nothing
    for _ in $(seq 120); do
        answer=$(ask_copy "$2" 2>/dev/null) || answer=nothing
        if [ "$answer" = "$3" ]; then return; fi
        if [ ! -f copy/postmaster.pid ]; then break; fi
        sleep 0.25
    done
    complain "with $1 the copy answers '$answer' and not '$3' to $2: $(tail -n 5 copy/log)"
}

# The rows that a server has, in their order.
rows="select string_agg(n::text, ' ' order by n) from entries"

# goes_live WHAT ROWS: the server of the copy ends its recovery, and has these rows.
goes_live() {
    local found
    start_copy
    until_copy "$1" 'select pg_is_in_recovery()' f
    found=$(ask_copy "$rows") || found=nothing
    [ "$found" = "$2" ] || complain "with $1 the rows are '$found' and not '$2'"
}

# reaches ROWS LABEL OPTION..: by these options that backup is restored, and its server goes live with these rows.
reaches() {
    local wanted=$1 chosen=$2
    shift 2
    restore 0 "INFO: restored backup $chosen
" --target-action=promote "$@"
    goes_live "$*" "$wanted"
}

# stays_down WHAT LINE: the server of the copy ends by itself, and this line is in its log.
stays_down() {
    start_copy
    for _ in $(seq 120); do
        if [ ! -f copy/postmaster.pid ]; then break; fi
        sleep 0.25
    done
    [ ! -f copy/postmaster.pid ] && grep -q -F -e "$2" copy/log || complain "with $1 the copy's log ends with: $(tail -n 5 copy/log)"
}

configure
# (nothing crashes here, so no server waits for its disk)
printf 'fsync = off\ntrack_commit_timestamp = on\nwal_retrieve_retry_interval = 500ms\n' >>pg/postgresql.conf
printf 'pg1-socket-path=%s/socket\n' "$room" >>conf
want 0 '' stanza-create
start_server
ask 'create table entries (n int)'

# Two backups, and rows between them and after them. (A target of time counts by whole seconds where a backup is chosen.)
back_up --type=full
first=$label
sleep 1.1
add 1 >/dev/null
at_2=$(add 2)
moment=$(moment_of 2)
add 3 >/dev/null
back_up --type=incr
last=$label
at_4=$(add 4)
fourth=$(transaction_of 4)
point="it's a\\b"
ask "select pg_create_restore_point('${point//\'/\'\'}')" >/dev/null
add 5 >/dev/null
switch >/dev/null
await

# Each type, with its target and before it.
reaches '1 2' "$first" --type=time --target="$moment"
reaches 1 "$first" --type=time --target="$moment" --target-exclusive
reaches '1 2' "$first" --type=lsn --target="$at_2"
reaches 1 "$first" --type=lsn --target="$at_2" --target-exclusive
reaches '1 2 3 4' "$last" --type=lsn --target="$at_4"
reaches '1 2 3' "$last" --type=lsn --target="$at_4" --target-exclusive
reaches '1 2 3 4' "$last" --type=xid --target="$fourth"
reaches '1 2 3' "$last" --type=xid --target="$fourth" --target-exclusive
reaches '1 2 3' "$last" --type=immediate

# No backup had ended before.
early='ERROR: [102]: no backup is early enough for the target
'
restore 102 "$early" --type=time --target="$(stop_of "$first")"
restore 102 "$early" --type=lsn --target=0/1
[ -z "$(ls -A copy)" ] || complain 'a restore that found no backup put something into the folder'

# Where the log ends before the target, no server goes live.
restore 0 "INFO: restored backup $last
" --type=lsn --target=F/0
stays_down 'a target after the end' 'recovery ended before configured recovery target was reached'

# What the server does at its target where it isn't promoted.
restore 0 "INFO: restored backup $last
" --type=name --target="$point"
[ "$(value_of recovery_target_name)" = "$point" ] || complain "the restore point is $(value_of recovery_target_name)"
start_copy
until_copy 'a pause' 'select pg_get_wal_replay_pause_state()' paused
until_copy 'a pause' "$rows" '1 2 3 4'
ask_copy 'select pg_wal_replay_resume()' >/dev/null || complain 'a paused server is not resumed'
until_copy 'a pause that ends' 'select pg_is_in_recovery()' f
restore 0 "INFO: restored backup $last
" --type=xid --target="$fourth" --target-action=shutdown
start_copy
for _ in $(seq 120); do
    if [ ! -f copy/postmaster.pid ]; then break; fi
    sleep 0.25
done
[ ! -f copy/postmaster.pid ] && grep -q 'shutdown at recovery target' copy/log ||
    complain "the server doesn't shut down: $(tail -n 5 copy/log)"
[ -f copy/recovery.signal ] || complain 'a server that shut down has ended its recovery'

# A standby gets what is archived later, and from nowhere else.
restore 0 "INFO: restored backup $last
" --type=standby
[ -f copy/standby.signal ] && [ ! -s copy/standby.signal ] && [ ! -e copy/recovery.signal ] || complain "a standby's folder has: $(ls copy)"
start_copy
until_copy 'a standby' "$rows" '1 2 3 4 5'
add 6 >/dev/null
switch >/dev/null
await
until_copy 'a standby' "$rows" '1 2 3 4 5 6'
until_copy 'a standby' 'select pg_is_in_recovery()' t
[ -z "$(value_of primary_conninfo)" ] || complain 'the standby has another server'
end_copy immediate

# With a setting of one's own it streams: what isn't archived yet is there.
primary="host=$room/socket user=postgres application_name='a copy'"
restore 0 "INFO: restored backup $last
" --type=standby --recovery-option="primary_conninfo=$primary"
[ "$(tail -n 1 copy/postgresql.auto.conf)" = "primary_conninfo = '${primary//\'/\'\'}'" ] ||
    complain "the last line of the settings is $(tail -n 1 copy/postgresql.auto.conf)"
[ "$(value_of primary_conninfo)" = "$primary" ] || complain "the standby's primary is $(value_of primary_conninfo)"
start_copy
add 7 >/dev/null
until_copy 'a standby that streams' "$rows" '1 2 3 4 5 6 7'
[ "$(ask 'select application_name from pg_stat_replication')" = 'a copy' ] || complain 'the standby does not stream from the server'
end_copy immediate
switch >/dev/null
await

# Several settings are there in their order, and of those with one name the last one counts, also over the program's own.
restore 0 "INFO: restored backup $last
" --recovery-option=recovery_end_command='echo "a\b"' --recovery-option=primary_slot_name=one --recovery-option=primary_slot_name=two \
    --recovery-option=restore_command=
cat >wanted <<'END'
recovery_end_command = 'echo "a\\b"'
primary_slot_name = 'one'
primary_slot_name = 'two'
restore_command = ''
END
tail -n 4 copy/postgresql.auto.conf | cmp -s - wanted || complain "the settings end with $(tail -n 4 copy/postgresql.auto.conf)"
[ "$(value_of recovery_end_command)" = 'echo "a\b"' ] || complain "a backslash becomes $(value_of recovery_end_command)"
[ "$(value_of primary_slot_name)" = two ] || complain "of two settings $(value_of primary_slot_name) counts"
[ -z "$(value_of restore_command)" ] || complain "the command in force is $(value_of restore_command)"

# The cluster itself goes back, which begins a timeline. Its own end is reached, and so is that of the one before.
stop_server fast
mv pg lost
make_folder pg
"${as[@]}" "${ours[@]}" --type=time --target="$moment" --target-action=promote restore >output 2>errors ||
    complain "the restore ended with $?: $(cat output errors)"
start_server
[ "$(ask "$rows")" = '1 2' ] || complain "the cluster goes back to the rows $(ask "$rows")"
add 8 >/dev/null
switch >/dev/null
await
history=repo/archive/demo/15-1/00000002.history
[ -f "$history" ] || complain 'the new timeline is not archived'
restore 0 "INFO: restored backup $last
" --target-timeline=current
goes_live 'the timeline of the backup' '1 2 3 4 5 6 7'
restore 0 "INFO: restored backup $first
" --set="$first" --target-timeline=latest
goes_live 'the latest timeline' '1 2 8'

# Without a word the last backup is taken, which was made after the latest timeline had left its own.
restore 0 "INFO: restored backup $last
"
stays_down 'the latest timeline' "requested timeline 2 is not a child of this server's history"

# By its number. The last backup lies on the timeline before, and was made after this one had left that.
restore 0 "INFO: restored backup $first
" --target-timeline=2
[ "$(value_of recovery_target_timeline)" = 2 ] || complain "the timeline is $(value_of recovery_target_timeline)"
goes_live 'the second timeline' '1 2 8'
restore 0 "INFO: restored backup $last
" --target-timeline=1
goes_live 'the first timeline' '1 2 3 4 5 6 7'

# Of the first timeline no history is asked. Without that of the second one, or with a damaged one, nothing is restored.
restore 103 'ERROR: [103]: history of timeline 10 is missing
' --target-timeline=010
cp -p "$history" kept
rm "$history"
restore 103 'ERROR: [103]: history of timeline 2 is missing
' --target-timeline=2
reaches '1 2 3 4' "$last" --type=lsn --target="$at_4" --target-timeline=1
cp -p kept "$history"
tr '\t' ' ' <kept >"$history"
restore 104 'ERROR: [104]: history 00000002 line 1 is not valid
' --type=lsn --target="$at_4" --target-timeline=2
[ -z "$(ls -A copy)" ] || complain 'a restore by a damaged history put something into the folder'
cp -p kept "$history"

# A backup of the cluster that was restored has the settings of that restore, which don't count any more.
back_up --type=full
again=$label
at_9=$(add 9)
ninth=$(transaction_of 9)
add 10 >/dev/null
switch >/dev/null
await
grep -q '^recovery_target_time = ' "repo/backup/demo/$again/pg_data/postgresql.auto.conf" || complain 'the backup has no earlier target'
restore 0 "INFO: restored backup $again
"
found=$(value_of recovery_target_time)
[ -z "$found" ] || complain "the target of an earlier restore is in force: $found"
found=$(value_of recovery_target_action)
[ "$found" = pause ] || complain "the action of an earlier restore is in force: $found"
goes_live 'an earlier target' '1 2 8 9 10'
reaches '1 2 8' "$again" --type=xid --target="$ninth" --target-exclusive

# Each timeline has a backup of its own now.
reaches '1 2 8 9' "$again" --type=lsn --target="$at_9" --target-timeline=2
reaches '1 2 8' "$again" --type=lsn --target="$at_9" --target-exclusive --target-timeline=2
reaches '1 2 3' "$last" --type=lsn --target="$at_4" --target-exclusive --target-timeline=1
reaches '1 2' "$first" --type=time --target="$moment" --target-timeline=2
restore 0 "INFO: restored backup $last
" --target-timeline=1
goes_live 'the first timeline again' '1 2 3 4 5 6 7'
restore 102 "$early" --type=lsn --target=0/1 --target-timeline=2
exit "$wrong"
