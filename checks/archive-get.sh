#!/usr/bin/env bash
# archive-get for servers of PostgreSQL 15 that recover: a backup's folder gets the rows that were written after it, on its own
# timeline and then on the next. Every kind of file that a server archives is served as it was, byte by byte.
. "$(dirname "$0")/server"

# Makes a backup of the running server in a new folder, by hand.
back_up() {
    mkdir "$1"
    chown --reference=pg "$1"
    chmod 700 "$1"
    timeout 300 "${as[@]}" "$tools/psql" -h "$room/socket" -U postgres -AtXq -v ON_ERROR_STOP=1 >label <<END
\o /dev/null
set client_min_messages = error;
select pg_backup_start('by hand', true);
\! cp -a pg/. $1
\o
select labelfile from pg_backup_stop();
END
    rm -rf "$1"/postmaster.* "$1"/pg_wal/0* "$1"/pg_wal/archive_status/* "$1/log"
    sed '/^$/d' label >"$1/backup_label"
    chown --reference=pg "$1/backup_label"
}

# recover FOLDER ASIDE: puts a backup's folder in the place of the cluster's, which is put aside, with what makes a server recover.
recover() {
    mv pg "$2"
    mv "$1" pg
    touch pg/recovery.signal
    chown --reference=pg pg/recovery.signal
}

# has_tables NAME..: the server has these tables, each with all of its rows, and its last start fetched the last segment.
has_tables() {
    local table
    [ "$(ask "select relname from pg_class where relname like 'rows%' order by 1")" = "$(printf '%s\n' "$@")" ] || complain "the tables aren't $*"
    for table in "$@"; do
        [ "$(ask "select count(*) from $table where length(md5) = 32")" = 20000 ] || complain "$table has lost rows"
    done
    grep -q "restored log file \"$last\" from archive" pg/log || complain "$last wasn't fetched"
}

want 0 '' stanza-create
configure
start_server
fill rows1
back_up first
back_up second
fill rows2
last=$(switch)
await
fill rows3
await
unarchived=$(ask 'select pg_walfile_name(pg_current_wal_lsn())')
stop_server immediate

# The first backup, and what the server hadn't handed over: a recovery to the last row, and a second timeline.
recover first failed
for file in failed/pg_wal/0*; do
    [ -f "failed/pg_wal/archive_status/${file##*/}.done" ] || cp -a "$file" pg/pg_wal
done
start_server
has_tables rows1 rows2 rows3
fill rows4
last=$(switch)
await
stop_server fast

# What was archived, as the servers have it. The second's own files are the later ones.
mkdir sent
for folder in failed/pg_wal pg/pg_wal; do
    for status in "$folder"/archive_status/*.done; do
        file=$folder/$(basename "$status" .done)
        [ ! -f "$file" ] || cp "$file" sent
    done
done
for kind in "$last" 00000002.history '0*.backup' "$unarchived.partial"; do
    [ -n "$(find sent -name "$kind")" ] || complain "no file $kind was archived"
done

# The second backup, from the archive alone, and over the end of the first timeline.
recover second earlier
start_server
has_tables rows1 rows2 rows3 rows4
stop_server fast

# fetch STATUS OUTPUT NAME PATH: archive-get, which leaves a file at the path exactly where it ends with 0.
served=pg_wal/served
fetch() {
    want "$1" "$2" archive-get "$3" "$4"
    [ "$1" = 0 ] || [ ! -e "pg/$served" ] || complain "$* left a file"
    [ -z "$(find pg -name '*.pgbackrest.tmp')" ] || complain "$* left a temporary file"
}

stored=$(find repo -type f | LC_ALL=C sort | xargs sha1sum)
for file in sent/*; do
    rm -f "pg/$served"
    fetch 0 '' "$(basename "$file")" "$served"
    cmp -s "$file" "pg/$served" || complain "$(basename "$file") isn't served as it was"
done
[ "$(stat -c %a "pg/$served")" = 600 ] || complain 'a served file has another mode than 600'
# A file that is there gives way, also at the whole path.
printf 'old' >"pg/$served"
fetch 0 '' 00000002.history "$room/pg/$served"
cmp -s sent/00000002.history "pg/$served" || complain 'what was there before is left'
rm "pg/$served"

absent=0000000100000000000000FE
fetch 1 "INFO: unable to find $absent in the archive
" "$absent" "$served"
fetch 30 "ERROR: [030]: 'nothing' is no WAL file name
" nothing "$served"
fetch 12 "ERROR: [012]: path '../served' is outside the data folder
" "$last" ../served
fetch 12 "ERROR: [012]: path '$room/served' is outside the data folder
" "$last" "$room/served"
[ "$(find repo -type f | LC_ALL=C sort | xargs sha1sum)" = "$stored" ] || complain 'archive-get changed the repository'

# A stored file of which one byte is another.
kept=$(sum_of "sent/$last")
damaged=repo/archive/demo/15-1/${last:0:16}/$last-$kept
printf 'x' | dd of="$damaged" bs=1 seek=20000 conv=notrunc status=none
fetch 35 "ERROR: [035]: checksum $kept, found $(sum_of "$damaged")
" "$last" "$served"
exit "$wrong"
