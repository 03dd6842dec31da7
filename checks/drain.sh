#!/usr/bin/env bash
# archive-push:async of the segments that a server of PostgreSQL 15 has ready: each stored file is the server's, byte by byte, and has its
# receipt. A drain that is killed is completed by the next one. A segment that is refused is marked so, and those after it are stored.
. "$(dirname "$0")/server"
mkdir spool
chown --reference=pg spool
sed -i "s|^lock-path=.*|&\nspool-path=$room/spool|" conf
out=spool/archive/demo/out

want 0 '' stanza-create
configure
sed -i "s|^archive_command = .*|archive_command = 'false'|" pg/postgresql.conf
start_server
for table in rows1 rows2 rows3 rows4 rows5 rows6; do
    fill "$table"
    switch >/dev/null
done
stop_server fast

ready() {
    find pg/pg_wal/archive_status -name '*.ready' -exec basename {} .ready \; | sort
}

# stored NAME: it is stored as it is, and has its receipt.
stored() {
    cmp -s "pg/pg_wal/$1" "$(stored_at "$1" "pg/pg_wal/$1")" || complain "$1 isn't stored as it is"
    [ "$(cat "$out/$1.ok" 2>/dev/null)" = "$(sum_of "pg/pg_wal/$1")" ] || complain "$1 has no receipt of its bytes"
}

mapfile -t names < <(ready)
[ "${#names[@]}" -ge 6 ] || complain "${#names[@]} segments are ready"

# Killed at some moment: each receipt is of a stored file.
for wait in 0.05 0.1 0.2 0.3; do
    program archive-push:async >/dev/null 2>&1 &
    sleep "$wait"
    pkill -9 -f "^$room/pgbackrest .*archive-push:async" || true
    wait "$!" 2>/dev/null || true
    for receipt in "$out"/*.ok; do
        [ ! -e "$receipt" ] || stored "$(basename "$receipt" .ok)"
    done
done

want 0 '' archive-push:async
for name in "${names[@]}"; do stored "$name"; done
[ "$(find repo/archive/demo/15-1 -type f | wc -l)" = "${#names[@]}" ] || complain 'other files are stored than those that were ready'
[ -z "$(find repo spool -type f ! -perm 600)" ] || complain 'a file has another mode than 600'
want 0 '' archive-push:async
[ "$(find "$out" -type f | wc -l)" = "${#names[@]}" ] || complain "the spool has other marks: $(ls "$out")"

# One with other bytes than are stored, and one that is no segment, are refused; the one after them is stored.
last=${names[-1]}
cp "pg/pg_wal/$last" whole
printf 'x' | dd of="pg/pg_wal/$last" bs=1 seek=20000 conv=notrunc status=none
make_segments 240 2
for number in F0 F1; do
    "${as[@]}" touch "pg/pg_wal/archive_status/0000000100000000000000$number.ready"
    chown --reference=pg "pg/pg_wal/0000000100000000000000$number"
done
head -c 16777216 /dev/zero >"pg/pg_wal/0000000100000000000000F0"
want 0 '' archive-push:async
stored 0000000100000000000000F1
[ "$(head -n 1 "$out/$last.error")" = 34 ] || complain "other bytes have the mark '$(cat "$out/$last.error" 2>/dev/null)'"
[ "$(head -n 1 "$out/0000000100000000000000F0.error")" = 32 ] || complain 'no segment is not refused'
[ "$(cat "$out/$last.ok")" = "$(sum_of whole)" ] || complain 'the receipt of what is stored changed'

# A file that isn't ready any more loses its mark.
rm "pg/pg_wal/archive_status/0000000100000000000000F1.ready"
cat whole >"pg/pg_wal/$last"
want 0 '' archive-push:async
[ ! -e "$out/0000000100000000000000F1.ok" ] || complain 'a mark of a file that is not ready is left'
stored "$last"
[ ! -e "$out/$last.error" ] || complain 'a refusal is left of a file that is stored'

# A name elsewhere that isn't UTF-8 doesn't matter, and a link in place of pg_wal is followed.
touch "pg/base/$(printf '\377')"
mv pg/pg_wal wal
ln -s "$room/wal" pg/pg_wal
rm "$out/$last.ok"
want 0 '' archive-push:async
stored "$last"
exit "$wrong"
