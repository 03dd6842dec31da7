#!/usr/bin/env bash
# archive-push of the segments that a server of PostgreSQL 15 writes: each stored file is the server's, byte by byte.
. "$(dirname "$0")/server"

want 0 '' stanza-create
configure
start_server
for table in rows1 rows2 rows3 rows4; do
    fill "$table"
    last=$(switch)
done
await
[ "$(ask 'select failed_count from pg_stat_archiver')" = 0 ] || complain "the server was refused a segment: $(tail -n 5 pg/log)"
stop_server fast

count=0
for status in pg/pg_wal/archive_status/*; do
    name=$(basename "$status" .done)
    [ "$status" = "pg/pg_wal/archive_status/$name.done" ] || complain "$status: the segment isn't archived"
    cmp -s "pg/pg_wal/$name" "$(stored_at "$name" "pg/pg_wal/$name")" || complain "$name isn't stored as it is"
    count=$((count + 1))
done
[ "$count" -ge 4 ] || complain "$count segments were archived"
files=$(find repo/archive/demo/15-1 -type f | wc -l)
[ "$files" = "$count" ] || complain "$count segments are $files files"
[ -z "$(find repo -type f ! -perm 600)" ] || complain 'a file has another mode than 600'
[ -z "$(find repo -mindepth 1 -type d ! -perm 700)" ] || complain 'a folder has another mode than 700'

# The same again, by both paths, changes nothing; other bytes are refused.
stored=$(stored_at "$last" "pg/pg_wal/$last")
kept=$(sum_of "pg/pg_wal/$last")
same="WARN: $last is already in the archive with the same checksum
"
want 0 "$same" archive-push "pg_wal/$last"
want 0 "$same" archive-push "$room/pg/pg_wal/$last"
cp "pg/pg_wal/$last" whole
printf 'x' | dd of="pg/pg_wal/$last" bs=1 seek=20000 conv=notrunc status=none
want 34 "ERROR: [034]: archived with checksum $kept, now $(sum_of "pg/pg_wal/$last")
" archive-push "pg_wal/$last"
cat whole >"pg/pg_wal/$last"
cmp -s whole "$stored" || complain "$stored changed"
[ "$(find repo/archive/demo/15-1 -type f | wc -l)" = "$count" ] || complain 'a refusal stored a file'

# A member of the archive's info that is cut or gone is written anew.
info=repo/archive/demo/archive.info
cp "$info" info
head -c 100 info >"$info"
want 0 "$same" archive-push "pg_wal/$last"
rm "$info.copy"
want 0 "$same" archive-push "pg_wal/$last"
for member in "$info" "$info.copy"; do
    cmp -s info "$member" || complain "$member isn't as it was"
done

want 30 "ERROR: [030]: 'nothing' is no WAL file name
" archive-push pg_wal/nothing
want 12 "ERROR: [012]: path 'base/$last' is outside the data folder
" archive-push "base/$last"
want 37 "ERROR: [037]: 'pg_wal/0000000100000000000000FE' is missing
" archive-push pg_wal/0000000100000000000000FE
truncate -s -1 "pg/pg_wal/$last"
want 31 "ERROR: [031]: segment size 16777216, found 16777215 bytes
" archive-push "pg_wal/$last"

# Where all info files are lost no stanza is made over the stored segments, and each file stays.
rm repo/archive/demo/archive.info* repo/backup/demo/backup.info*
found=$(find repo/archive repo/backup -type f | LC_ALL=C sort)
want 29 "ERROR: [029]: info files are missing, repository holds '$(head -n 1 <<<"${found#repo/}")'
" stanza-create
[ "$(find repo/archive repo/backup -type f | LC_ALL=C sort)" = "$found" ] || complain 'a refused stanza-create changed the repository'
exit "$wrong"
