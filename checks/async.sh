#!/usr/bin/env bash
# archive-push with archive-async of a server of PostgreSQL 15 under load: each file that the server saw archived is stored as it is,
# though drains are killed, and the server restarted. A segment that is refused is reported so, and one that isn't ready isn't archived.
. "$(dirname "$0")/server"
mkdir spool
chown --reference=pg spool
sed -i "s|^lock-path=.*|&\nspool-path=$room/spool|" conf
printf '\n[global:archive-push]\narchive-async=y\narchive-timeout=10\n' >>conf
out=spool/archive/demo/out

# The drains that run now.
drains() {
    pgrep -f "^$room/pgbackrest .*archive-push:async" || true
}

kill_drains() {
    local id
    for id in $(drains); do kill -9 "$id" 2>/dev/null || true; done
}

load() {
    "${as[@]}" "$tools/pgbench" -h "$room/socket" -U postgres -n -c 2 -T "$1" postgres >/dev/null 2>&1
}

want 0 '' stanza-create
configure
start_server
"${as[@]}" "$tools/pgbench" -h "$room/socket" -U postgres -i -s 10 -q postgres >/dev/null 2>&1 || complain 'pgbench made no tables'

# Under load some drains are killed, each at another moment.
load 20 &
loading=$!
killed=0
for wait in 0.2 0.5 0.1 0.3 0.7 0.2 0.4 0.1 0.6 0.3; do
    for _ in $(seq 20); do
        if [ -n "$(drains)" ]; then break; fi
        ask 'select pg_switch_wal()' >/dev/null
        sleep 0.1
    done
    sleep "$wait"
    [ -z "$(drains)" ] || killed=$((killed + 1))
    kill_drains
done
wait "$loading" || complain 'the load failed'

# The server is restarted while files are ready.
for table in rows1 rows2 rows3 rows4; do
    fill "$table"
    switch >/dev/null
done
stop_server immediate
start_server
load 5 || complain 'the load failed behind the restart'
last=$(switch)
await
stop_server fast

count=0
for status in pg/pg_wal/archive_status/*.done; do
    name=$(basename "$status" .done)
    cmp -s "pg/pg_wal/$name" "$(stored_at "$name" "pg/pg_wal/$name")" || complain "$name isn't stored as it is"
    count=$((count + 1))
done
[ "$count" -ge 10 ] || complain "$count segments were archived"
[ -e "pg/pg_wal/archive_status/$last.done" ] || complain "$last isn't archived"
[ -z "$(find repo spool -type f ! -perm 600)" ] || complain 'a file has another mode than 600'

# A segment that is stored: its drain says so, and no line reports it. Its mark is gone, and so is no other.
mv "pg/pg_wal/archive_status/$last.done" "pg/pg_wal/archive_status/$last.ready"
want 0 '' archive-push "pg_wal/$last"
[ ! -e "$out/$last.ok" ] || complain "the mark of $last is left"

# One that is no segment is refused, and the refusal reported; then it is as if it was never asked.
make_segments 240 1
torn=0000000100000000000000F0
chown --reference=pg "pg/pg_wal/$torn"
head -c 16777216 /dev/zero >"pg/pg_wal/$torn"
"${as[@]}" touch "pg/pg_wal/archive_status/$torn.ready"
for _ in 1 2; do
    status=0
    program archive-push "pg_wal/$torn" >output 2>errors || status=$?
    [ "$status" = 39 ] || complain "no segment: ended with $status and '$(cat output)'"
    grep -q '^ERROR: \[039\]: \[32\] ' output || complain "no segment: wrote '$(cat output)'"
    [ ! -e "$out/$torn.error" ] || complain "the mark of $torn is left"
done
rm "pg/pg_wal/archive_status/$torn.ready"

# One that isn't ready is stored by no drain.
make_segments 241 1
chown --reference=pg "pg/pg_wal/0000000100000000000000F1"
want 38 "ERROR: [038]: '0000000100000000000000F1' not archived after 2 turns
" --archive-timeout=2 archive-push pg_wal/0000000100000000000000F1
want 37 "ERROR: [037]: 'pg_wal/0000000100000000000000FE' is missing
" archive-push pg_wal/0000000100000000000000FE

# Other bytes than are stored aren't archived.
mv "pg/pg_wal/archive_status/$last.ready" "pg/pg_wal/archive_status/$last.done" 2>/dev/null || true
printf 'x' | dd of="pg/pg_wal/$last" bs=1 seek=20000 conv=notrunc status=none
mv "pg/pg_wal/archive_status/$last.done" "pg/pg_wal/archive_status/$last.ready"
status=0
program archive-push "pg_wal/$last" >output 2>errors || status=$?
[ "$status" = 39 ] || complain "other bytes: ended with $status and '$(cat output)'"
grep -q '^ERROR: \[039\]: \[34\] ' output || complain "other bytes: wrote '$(cat output)'"

# No drain is left running.
for _ in $(seq 50); do
    if [ -z "$(drains)" ]; then break; fi
    sleep 0.1
done
[ -z "$(drains)" ] || complain 'a drain runs on'
printf '%s segments were archived, %s drains were killed\n' "$count" "$killed"
exit "$wrong"
