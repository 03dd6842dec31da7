#!/usr/bin/env bash
# What others do just as the program works: a control file is read while it is written, a lock's file is exchanged as it is taken, a server
# takes no connection while its stanza's archive is locked, and the processes that the program started end, or hang.
. "$(dirname "$0")/common"
if ! strace -qq -o calls true 2>/dev/null || ! perl -MSocket -e 1 2>/dev/null; then
    printf 'strace or perl is not here: skipped\n'
    exit 77
fi
# (no server runs in it, so a part of it will do)
rm -r pg/base/4 pg/base/5
find pg/base/1 -type f -name '[0-9]*' | tail -n +20 | xargs rm
running=
beside=
end_all() {
    for process in $running $beside; do kill -KILL "$process" 2>/dev/null || true; done
}
trap 'end_all; rm -rf "$room"' EXIT
repo=$room/repo
data=(--pg1-path="$room/pg")
offline=("${data[@]}" --no-online --type=full)
words=(--no-config --stanza=demo --lock-path="$room/lock")

# It ends at the latest after two minutes, with 124.
program() {
    timeout 120 "$top/bin/pgbackrest" "${words[@]}" --repo1-path="$repo" "$@"
}

# begin WORD..: this in the background.
begin() {
    "$@" >running.output 2>&1 &
    running=$!
}

# ends STATUS WHAT: what runs in the background ends so.
ends() {
    local status=0
    wait "$running" || status=$?
    running=
    [ "$status" = "$1" ] || complain "$2 ended with $status and not $1: $(cat running.output)"
}

# until_so WHAT CONDITION: waits for it, two minutes at most.
until_so() {
    for _ in $(seq 2400); do
        if eval "$2"; then return; fi
        sleep 0.05
    done
    complain "it never came so far: $1"
}

make_segments 16 4
rm pg/pg_wal/000000010000000000000001

# Writes a control file in two halves, for ever: the same number into both, and its sum into the second one, some milliseconds apart.
cat >writer <<'END'
sub sum {
    my $sum = 0xffffffff;
    for my $byte (unpack 'C*', $_[0]) {
        $sum ^= $byte;
        for (1 .. 8) { $sum = $sum & 1 ? ($sum >> 1) ^ 0x82f63b78 : $sum >> 1 }
    }
    return $sum ^ 0xffffffff;
}
open my $to, '+<', $ARGV[0] or die;
sysread $to, my $bytes, 288;
for (my $number = 1;; $number++) {
    for my $place (24, 256) { substr $bytes, $place, 8, pack 'Q>', $number }
    my $whole = $bytes . pack 'L<', sum($bytes);
    for my $part ([24, 8], [256, 36]) {
        sysseek $to, $part->[0], 0;
        syswrite $to, substr $whole, $part->[0], $part->[1];
        select undef, undef, undef, 0.004;
    }
}
END
# Whether both halves of a control file have the same number.
is_one() {
    [ "$(tail -c +25 "$1" | head -c 8 | od -An -tx1)" = "$(tail -c +257 "$1" | head -c 8 | od -An -tx1)" ]
}
cp -p pg/global/pg_control kept
perl writer pg/global/pg_control &
beside=$!
torn=0
for _ in $(seq 60); do
    cp pg/global/pg_control seen
    is_one seen || torn=$((torn + 1))
done
[ "$torn" -ge 10 ] || complain "a plain reading of the control file was torn $torn times of 60 alone"
for number in $(seq 12); do
    repo=$room/repo$number
    want 0 '' "${data[@]}" --no-online stanza-create
    program "${offline[@]}" backup >output 2>&1 || complain "a backup beside a server that writes ended with $?: $(cat output)"
    is_one "$repo"/backup/demo/*F/pg_data/global/pg_control || complain "backup $number has a torn control file"
    rm -r "$repo"
done
kill "$beside"
wait "$beside" 2>/dev/null || true
beside=
# One whose sum is wrong is taken where nobody writes it.
repo=$room/repo0
want 0 '' "${data[@]}" --no-online stanza-create
printf x | dd of=pg/global/pg_control bs=1 seek=24 conv=notrunc status=none
program "${offline[@]}" backup >output 2>&1 || complain "a backup with another sum ended with $?: $(cat output)"
cmp -s pg/global/pg_control "$repo"/backup/demo/*F/pg_data/global/pg_control || complain 'a control file with another sum is stored otherwise'
cp -p kept pg/global/pg_control

# The file of a lock is exchanged as it was opened, and another process holds the new one.
repo=$room/repo
want 0 '' "${data[@]}" --no-online stanza-create
want 0 '' "${data[@]}" archive-push "$(segment 16)"
exec 9>new
flock 9
begin strace -qq -o calls -e trace=flock -e inject=flock:delay_enter=2000000:when=1 \
    "$top/bin/pgbackrest" "${words[@]}" --repo1-path="$repo" "${data[@]}" archive-push "$(segment 17)" 9>&-
until_so 'a push opens its lock' 'ls -l /proc/$(pgrep -P "$running")/fd 2>/dev/null | grep /demo-archive.lock$ >/dev/null'
mv new lock/demo-archive.lock
ends 20 'a push whose lock was exchanged'
[ "$(grep -c '^flock(' calls)" -ge 2 ] || complain "the push takes no lock, or the old one alone: $(cat calls)"
exec 9>&-
want 0 '' "${data[@]}" archive-push "$(segment 17)"

# A server whose queue of connections is full. Each that is given up at once is made again by the server that archives.
cat >full <<'END'
use Socket qw(:DEFAULT SOCK_NONBLOCK);
$| = 1;
my $place = pack_sockaddr_un($ARGV[0]);
socket my $server, AF_UNIX, SOCK_STREAM, 0 or die;
bind $server, $place or die;
listen $server, 0 or die;
my @queue;
for (1 .. 50) {
    socket my $caller, AF_UNIX, SOCK_STREAM | SOCK_NONBLOCK, 0 or die;
    if (!connect $caller, $place) { print "full\n"; sleep 300; }
    push @queue, $caller;
}
END
mkdir socket
perl full "$room/socket/.s.PGSQL.5432" >queue &
beside=$!
until_so 'a full queue' '[ -s queue ]'
asking=("${data[@]}" --pg1-socket-path="$room/socket")
began=$SECONDS
want 83 'ERROR: [083]: server connection failed
' "${asking[@]}" --db-timeout=2 stanza-create
took=$((SECONDS - began))
[ "$took" -ge 1 ] && [ "$took" -lt 20 ] || complain "a server that takes no connection was waited for $took seconds"
# Meanwhile the archive is locked: a push is refused at once, its segment stays, and the same push is made once the lock is free.
begin program "${asking[@]}" --db-timeout=6 stanza-create
until_so 'stanza-create holds the lock' 'is_locked lock/demo-archive.lock'
began=$SECONDS
want 20 "ERROR: [020]: lock 'demo-archive.lock' is held
" "${data[@]}" archive-push "$(segment 18)"
[ $((SECONDS - began)) -lt 4 ] || complain 'a push waits for a server that another command asks'
ends 83 'stanza-create beside a push'
want 0 '' "${data[@]}" archive-push "$(segment 18)"
cmp -s "$(segment 18)" "$(stored_at "$(basename "$(segment 18)")" "$(segment 18)")" || complain 'the push behind it stored other bytes, or none'
kill "$beside"
wait "$beside" 2>/dev/null || true
beside=

# Each worker has ended before the program ends, which has waited for it.
for words_of in "${offline[*]} --process-max=3 backup" "--pg1-path=$room/new --type=none --process-max=3 restore"; do
    # shellcheck disable=SC2086
    strace -f -qq -o calls -e trace=execve,wait4 "$top/bin/pgbackrest" --no-config --stanza=demo --repo1-path="$repo" \
        $([[ $words_of != *backup ]] || printf %s "--lock-path=$room/lock") $words_of >output 2>&1 ||
        complain "$words_of ended with $?: $(cat output)"
    workers=$(sed -n 's/^\([0-9]*\) .*execve(.*, "local"\].*/\1/p' calls)
    [ "$(wc -w <<<"$workers")" -ge 2 ] || complain "$words_of has no workers: '$workers'"
    for worker in $workers; do
        grep -q "wait4.* = $worker\$" calls || complain "$words_of doesn't wait for its worker $worker"
    done
done

# Workers that hang at the end don't keep it.
begin strace -qq -o calls -P "$repo/backup/demo/backup.info.pgbackrest.tmp" -e trace=rename -e inject=rename:delay_enter=3000000:when=1 \
    "$top/bin/pgbackrest" "${words[@]}" --repo1-path="$repo" "${offline[@]}" --process-max=2 backup
until_so 'a backup is about to be listed' '[ -e "$repo/backup/demo/backup.info.pgbackrest.tmp" ]'
hung=$(pgrep -P "$(pgrep -P "$running")" -f ' local$') || complain 'no worker was found'
# shellcheck disable=SC2086
kill -STOP $hung || complain 'the workers ended before'
began=$SECONDS
ends 0 'a backup whose workers hang at its end'
[ $((SECONDS - began)) -lt 40 ] || complain "a backup waits for workers that hang: $((SECONDS - began)) seconds"
for worker in $hung; do
    [ "$(sed 's/.*) //; s/ .*//' "/proc/$worker/stat" 2>/dev/null)" = T ] || complain "the worker $worker didn't hang"
    kill -KILL "$worker" 2>/dev/null || true
done

# What a push starts in the background is waited for as it ends, while the push goes on.
begin "$top/bin/pgbackrest" "${words[@]}" --repo1-path="$repo" "${data[@]}" --archive-async --spool-path="$room/spool" --archive-timeout=8 \
    archive-push "$(segment 19)"
until_so 'a push starts another process' 'pgrep -P "$running" >/dev/null'
until_so 'what a push started is waited for' '! pgrep -P "$running" >/dev/null'
# (the end of the push itself would leave none either)
kill -0 "$running" || complain "a push ended before what it started was waited for: $(cat running.output)"
ends 38 'a push of a segment that is not ready'
exit "$wrong"
