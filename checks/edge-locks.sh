#!/usr/bin/env bash
# What one program may do to another, and what may keep one waiting: two at once exclude each other whatever their lock folders are, no
# lock is taken that isn't the user's own, no push is stopped by its output, and a worker that says nothing is given up.
. "$(dirname "$0")/common"
# (no server runs in it, so a part of it will do)
rm -r pg/base/4 pg/base/5
ours=("$top/bin/pgbackrest" --no-config --stanza=demo --repo1-path="$room/repo")
data=(--pg1-path="$room/pg")
lock=(--lock-path="$room/lock")
offline=("${data[@]}" --no-online --type=full)
running=
trap '[ -z "$running" ] || kill -KILL "$running" 2>/dev/null || true; rm -rf "$room"' EXIT

# It ends at the latest after five minutes, with 124.
program() {
    timeout 300 "${ours[@]}" "$@"
}

# slow CALL PATH NUMBER: what begins next takes three seconds for its call of this number with that path, where strace is.
before=()
slow() {
    before=()
    if strace -qq -o calls true 2>/dev/null; then
        before=(strace -f --seccomp-bpf -qq -o calls -P "$2" -e trace="$1" -e inject="$1:delay_enter=3000000:when=$3")
    fi
}

# begin WORD..: the program in the background.
begin() {
    "${before[@]}" "${ours[@]}" "$@" >running.output 2>&1 &
    running=$!
    before=()
}

# stop_where CONDITION: stops it as soon as that holds.
stop_where() {
    until eval "$1"; do
        if ! kill -0 "$running" 2>/dev/null; then
            complain "the program ended before '$1': $(cat running.output)"
            return
        fi
    done
    kill -STOP "$running" || complain "the program ended as '$1' came: $(cat running.output)"
}

# ends STATUS WHAT: it continues, and ends so within five minutes.
ends() {
    local status=0
    kill -CONT "$running" 2>/dev/null || true
    for _ in $(seq 3000); do
        if ! kill -0 "$running" 2>/dev/null; then break; fi
        sleep 0.1
    done
    kill -KILL "$running" 2>/dev/null && complain "$2 doesn't end"
    wait "$running" 2>/dev/null || status=$?
    running=
    [ "$status" = "$1" ] || complain "$2 ended with $status and not $1: $(cat running.output)"
}

# The repository has nothing wrong.
is_whole() {
    want 0 '' verify
}

make_segments 16 3
rm pg/pg_wal/000000010000000000000001
want 0 '' "${data[@]}" "${lock[@]}" --no-online stanza-create
want 0 '' "${data[@]}" "${lock[@]}" archive-push "$(segment 16)"

# A segment of 64 MiB, whose push takes a while. Its header has this size in the four bytes from the 33rd on.
large=$(segment 255)
{
    head -c 32 "$(segment 16)"
    printf '\0\0\0\004'
    head -c 8192 "$(segment 16)" | tail -c +37
} >"$large"
truncate -s 64M "$large"
is_held="ERROR: [020]: lock 'demo-archive.lock' is held
"
slow rename "$room/$(stored_at "$(basename "$large")" "$large")" 1
begin "${data[@]}" "${lock[@]}" archive-push "$large"
stop_where '[ -n "$(find repo/archive/demo/15-1 -name "*pgbackrest.tmp*" -size +0 2>/dev/null)" ]'
want 20 "$is_held" "${data[@]}" --lock-path="$room/other" archive-push "$(segment 17)"
(cd pg && want 20 "$is_held" "${data[@]}" --lock-path=other archive-push "$(segment 17)" && exit "$wrong") || wrong=1
want 20 "$is_held" "${data[@]}" --lock-path="$room/other" --no-online stanza-create
rm lock/demo-archive.lock
want 20 "$is_held" "${data[@]}" "${lock[@]}" archive-push "$(segment 17)"
ends 0 'a push beside others'
want 0 '' "${data[@]}" "${lock[@]}" archive-push "$(segment 17)"
want 0 '' "${data[@]}" "${lock[@]}" archive-push "$(segment 18)"
is_whole
rm -rf "$large" "$(segment 17)" "$(segment 18)" pg/other

# A backup, an expiry and another backup.
is_held="ERROR: [020]: lock 'demo-backup.lock' is held
"
truncate -s 32M pg/base/1/99999
slow rename "$room/repo/backup/demo/backup.info.pgbackrest.tmp" 1
begin "${offline[@]}" "${lock[@]}" backup
stop_where 'compgen -G "repo/backup/demo/*F/pg_data/base/1/*" >/dev/null'
want 20 "$is_held" --lock-path="$room/other" expire
want 20 "$is_held" "${offline[@]}" --lock-path="$room/other" backup
rm lock/demo-backup.lock
want 20 "$is_held" "${lock[@]}" expire
ends 0 'a backup beside others'
is_whole

# A server that is started meanwhile makes the backup worthless.
slow pread64 "$room/pg/base/1/99999" 100
begin "${offline[@]}" "${lock[@]}" backup
stop_where '[ "$(find repo/backup/demo/*F/pg_data/base/1 -name 99999 | wc -l)" = 2 ]'
touch pg/postmaster.pid
ends 80 'a backup beside a server that was started'
[ "$(program info | grep -c 'full backup: ')" = 1 ] || complain 'a backup beside a server is listed'
rm pg/postmaster.pid

# Two restores into one folder.
want 0 "INFO: restored backup $(cd repo/backup/demo && printf '%s\n' *F | head -n 1)
" --pg1-path="$room/new" --type=none restore
printf x | dd of=new/base/1/99999 conv=notrunc status=none || true
slow rename "$room/new/global/pg_control.pgbackrest.tmp" 1
begin --pg1-path="$room/new" --type=none --delta restore
stop_where '[ ! -e new/global/pg_control ]'
want 82 'ERROR: [082]: data folder failed
' --pg1-path="$room/new" --type=none --delta restore
ends 0 'a restore beside another'
cmp -s pg/base/1/99999 new/base/1/99999 || complain 'a restore beside another left other bytes'
rm -rf new

# refused WHAT: a push with the lock folder `bad` fails, and it doesn't wait.
refused() {
    want 85 'ERROR: [085]: lock failed
' "${data[@]}" --lock-path="$room/bad" archive-push "$(segment 16)"
    [ ! -e target ] || complain "a push made what $1 leads to"
    rm -rf bad target
    mkdir bad
}
mkdir bad
mkfifo bad/demo-archive.lock
refused 'a FIFO'
ln -s "$room/target" bad/demo-archive.lock
refused 'a link'
mkdir bad/demo-archive.lock
refused 'a folder'
chmod 777 bad
refused 'a folder of all users'
if [ "$(id -u)" = 0 ]; then
    chown 65534 bad
    refused 'a folder of another user'
fi
chmod 1777 bad
make_segments 19 1
want 0 '' "${data[@]}" --lock-path="$room/bad" archive-push "$(segment 19)"
rm "$(segment 19)"

# A FIFO in the repository isn't waited for.
mv repo/archive/demo/archive.info kept
mkfifo repo/archive/demo/archive.info
status=0
program "${data[@]}" archive-get 0000000100000000000000FE pg_wal/x >output 2>&1 || status=$?
[ "$status" = 80 ] || complain "a FIFO as the info file: $status and not 80: $(cat output)"
mv kept repo/archive/demo/archive.info

# A push of what is stored, and one by a configuration with an unknown key, write a warning that nobody may be there to take.
printf '[global]\nstrange=y\n' >strange
for streams in '>/dev/full' '>&-' '2>&-' '>&- 2>&-' '<&- >&- 2>&-'; do
    for source in --no-config --config="$room/strange"; do
        number=$(($(find repo/archive/demo/15-1 -name '0000*-*' | wc -l) + 32))
        make_segments "$number" 1
        for segment in 16 "$number"; do
            status=0
            eval "timeout 60 $top/bin/pgbackrest $source ${ours[*]:2} ${data[*]} ${lock[*]} archive-push $(segment "$segment") $streams" \
                >/dev/null || status=$?
            [ "$status" = 0 ] || complain "a push with $source and $streams ended with $status"
        done
        cmp -s "$(segment "$number")" "$(stored_at "$(basename "$(segment "$number")")" "$(segment "$number")")" ||
            complain "a push with $source and $streams stored other bytes, or none"
        rm "$(segment "$number")"
    done
done
{
    for _ in $(seq 1200); do
        if [ -e closed ]; then break; fi
        sleep 0.05
    done
    status=0
    program "${data[@]}" "${lock[@]}" archive-push "$(segment 16)" || status=$?
    printf '%s' "$status" >status
} | { exec <&- && : >closed; }
[ "$(cat status)" = 0 ] || complain "a push whose output nobody reads ended with $(cat status)"
program "${offline[@]}" "${lock[@]}" --log-level-stderr=info backup >output 2>&- || complain "a backup without standard error ended with $?: $(cat output)"
[ -z "$(find lock -type f -size +0)" ] || complain 'what was for standard error is in a lock'

# Whether a worker has the large file open, and which: it is in the middle of a job.
works() {
    for worker in $(pgrep -P "$running" -f ' local$'); do
        if ls -l "/proc/$worker/fd" 2>/dev/null | grep '/pg/base/1/99999$' >/dev/null; then return; fi
    done
    return 1
}

# A worker that stops: another one does its job, and without another the backup ends. It was silent for five seconds since its job, not for twice as long, and is killed.
truncate -s 64M pg/base/1/99999
for workers in 2 1; do
    worker=
    begin "${offline[@]}" "${lock[@]}" --process-max="$workers" --io-timeout=5 backup
    stop_where works
    kill -STOP "$worker" || complain 'no worker was found'
    began=$(date +%s%N)
    kill -CONT "$running"
    for _ in $(seq 600); do
        [ "$(sed 's/.*) //; s/ .*//' "/proc/$worker/stat" 2>/dev/null)" = T ] || break
        sleep 0.05
    done
    took=$((($(date +%s%N) - began) / 1000000))
    [ "$took" -ge 4000 ] || complain "one of $workers workers stopped, and was given up after $took ms"
    [ "$took" -lt 9000 ] || complain "one of $workers workers stopped, and was waited for $took ms"
    if [ "$workers" = 2 ]; then ends 0 'a backup by two workers, one of which stops,'; else ends 55 'a backup whose worker stops'; fi
    kill -KILL "$worker" 2>/dev/null || true
done
is_whole
exit "$wrong"
