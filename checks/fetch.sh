#!/usr/bin/env bash
# archive-get with archive-async, for a server of PostgreSQL 15 that recovers: all rows come back, segments are fetched ahead, and it
# is so too where the fetches are killed. Then by hand: what is fetched, what the spool serves, and what is refused.
. "$(dirname "$0")/server"

# The server starts this program by its name.
export PATH=$room:$PATH
mkdir spool
chown --reference=pg spool
sed -i "s|^lock-path=.*|&\nspool-path=$room/spool|" conf
printf '\n[global:archive-get]\narchive-async=y\narchive-get-queue-max=64MiB\n' >>conf
in=spool/archive/demo/in
tables=12

# The fetches that run now.
fetches() {
    pgrep -f "pgbackrest .*--spool-path=$room/spool .*archive-get:async" || true
}

# Waits until none does.
rest() {
    for _ in $(seq 200); do
        if [ -z "$(fetches)" ]; then return; fi
        sleep 0.1
    done
    complain 'a fetch runs on'
}

# Notes what is fetched, and with a word kills each fetch that is found, until the file `stop` is there.
watch() {
    local id
    while [ ! -e stop ]; do
        ls "$in" >>seen 2>/dev/null || true
        if [ -n "${1:-}" ]; then
            for id in $(fetches); do kill -9 "$id" 2>/dev/null && echo "$id" >>killed || true; done
        fi
        sleep 0.0"$((RANDOM % 9 + 1))"
    done
}

# recover WORD..: the backup is put into a new folder, and a server recovers from it, watched so; it has all rows.
recover() {
    local table
    rm -rf pg "$in" stop seen
    mkdir pg
    chown --reference=lost pg
    chmod 700 pg
    "${as[@]}" "${ours[@]}" restore >output || complain "the restore ended with $?: $(cat output)"
    : >seen
    watch "$@" &
    local watching=$!
    start_server
    touch stop
    wait "$watching"
    for table in $(seq "$tables"); do
        [ "$(ask "select count(*) from rows$table where length(md5) = 32")" = 20000 ] || complain "rows$table has lost rows"
    done
    grep -q "restored log file \"$last\" from archive" pg/log || complain "$last wasn't fetched"
    if grep -q 'unable to start' pg/log; then complain 'a fetch could not be started'; fi
    rest
    stop_server fast
}

# stored NAME: the file at which a segment of this name is stored.
stored() {
    printf '%s' repo/archive/demo/15-1/"${1:0:16}/$1"-*
}

# fetched NAME..: the spool has these segments and no others, each as it is stored.
fetched() {
    local name file
    for name in "$@"; do
        file=$in/$(basename "$(stored "$name")")
        cmp -s "$(stored "$name")" "$file" || complain "$name isn't in the spool as it is stored"
    done
    [ "$(find "$in" -type f | wc -l)" = $# ] || complain "the spool has not just $#: $(ls "$in")"
}

want 0 '' stanza-create
configure
start_server
stop_server fast
program --no-online --type=full backup >output || complain "the backup ended with $?: $(cat output)"
start_server
for table in $(seq "$tables"); do
    fill "rows$table"
    last=$(switch)
done
await
stop_server immediate
mv pg lost

recover
[ "$(sort -u seen | wc -l)" -ge 4 ] || complain "only these were fetched ahead: $(sort -u seen)"
ahead=$(sort -u seen | wc -l)
for file in "$in"/*; do
    [ -e "$file" ] || continue
    cmp -s "$file" "repo/archive/demo/15-1/0000000100000000/${file##*/}" || complain "${file##*/} isn't what is stored"
done
: >killed
recover kill

# By hand, after the first segment that is stored.
mapfile -t names < <(cd repo/archive/demo/15-1/0000000100000000 && ls | grep -E '^[0-9A-F]{24}-' | cut -c1-24 | LC_ALL=C sort)
want 0 '' archive-get:async "${names[0]}"
fetched "${names[@]:1:4}"
[ -z "$(find spool -type f ! -perm 600)" ] || complain 'a file of the spool has another mode than 600'

# The spool serves what the repository has damaged, and then no more. The next segment is there, so no fetch is started.
damaged=$(stored "${names[1]}")
cp -p "$damaged" whole
printf 'x' | dd of="$damaged" bs=1 seek=9000 conv=notrunc status=none
want 0 '' archive-get "${names[1]}" pg_wal/RECOVERYXLOG
cmp -s whole pg/pg_wal/RECOVERYXLOG || complain 'other bytes were served'
fetched "${names[@]:2:3}"
[ -z "$(fetches)" ] || complain 'a fetch was started'
rm pg/pg_wal/RECOVERYXLOG
want 35 "ERROR: [035]: checksum $(sum_of whole), found $(sum_of "$damaged")
" archive-get "${names[1]}" pg_wal/RECOVERYXLOG
[ ! -e pg/pg_wal/RECOVERYXLOG ] || complain 'a damaged segment was served'
cp -p whole "$damaged"

# What is cut in the spool comes from the repository.
truncate -s 5000000 "$in/$(basename "$(stored "${names[2]}")")"
want 0 '' archive-get "${names[2]}" pg_wal/RECOVERYXLOG
cmp -s "$(stored "${names[2]}")" pg/pg_wal/RECOVERYXLOG || complain 'cut bytes were served'
fetched "${names[@]:3:2}"

# The last one that was fetched: the next are fetched then.
want 0 '' archive-get "${names[4]}" pg_wal/RECOVERYXLOG
rest
fetched "${names[@]:5:4}"
want 0 '' --archive-get-queue-max=0 archive-get:async "${names[7]}"
fetched "${names[8]}"

want 1 "INFO: unable to find 0000000100000000000000FE in the archive
" archive-get:async 0000000100000000000000FE
want 30 "ERROR: [030]: '00000002.history' is no WAL file name
" archive-get:async 00000002.history
want 81 "ERROR: [081]: spool failed
" --spool-path="$room/conf" archive-get "${names[4]}" pg_wal/RECOVERYXLOG
rest
printf '%s segments were fetched ahead, %s fetches were killed\n' "$ahead" "$(wc -l <killed)"
exit "$wrong"
