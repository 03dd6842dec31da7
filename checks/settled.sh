#!/usr/bin/env bash
# How often commands sync: what the note lists as durable isn't synced again. strace counts, and makes each sync
# take a while, so that the file system's clock continues meanwhile also where a sync is quick.
. "$(dirname "$0")/common"
counted=(strace -f -qq -o calls -e trace=fsync,fdatasync,sync,syncfs -e inject=fsync:delay_exit=20000)
if ! "${counted[@]}" true 2>/dev/null; then
    printf 'strace is not here: skipped\n'
    exit 77
fi
# (nobody else changes the folder that holds the root)
mkdir held
ln -s held/repo repo
places=(--stanza=demo --pg1-path="$room/pg" --repo1-path="$room/held/repo")

program() {
    "${counted[@]}" "$top/bin/pgbackrest" "${places[@]}" "$@"
}

# syncs COUNT WHEN STATUS OUTPUT WORD..: the program ends so, writes that, and syncs this many times.
syncs() {
    local count wanted=$1 when=$2
    shift 2
    want "$@"
    count=$(grep -c 'sync[a-z_]*(' calls) || true
    [ "$count" = "$wanted" ] || complain "${*:3} $when makes $count syncs and not $wanted"
}

# push COUNT WHEN NUMBER and push_again, get, get_nothing COUNT WHEN
push() {
    pushed=$(segment "$3")
    syncs "$1" "$2" 0 '' --lock-path="$room/lock" archive-push "$pushed"
}

push_again() {
    syncs "$1" "$2" 0 "WARN: $(basename "$pushed") is already in the archive with the same checksum
" --lock-path="$room/lock" archive-push "$pushed"
}

get() {
    rm -f pg/pg_wal/served
    syncs "$1" "$2" 0 '' archive-get "$(basename "$pushed")" pg_wal/served
}

get_nothing() {
    syncs "$1" "$2" 1 'INFO: unable to find 0000000100000000000000FE in the archive
' archive-get 0000000100000000000000FE pg_wal/served
}

# each COUNT WHEN: the commands that change no name of the repository.
each() {
    push_again "$@"
    get "$@"
    get_nothing "$@"
}

make_segments 16 12
want 0 '' --lock-path="$room/lock" --no-online stanza-create
want 0 '' --lock-path="$room/lock" archive-push "$(segment 16)"
push 2 'behind a push' 17
each 0 'behind a push'
push 2 'behind a fetch' 18

# A folder that changed since, about which a reader informs no others.
folder=repo/archive/demo/15-1/0000000100000000
touch "$folder/other"
each 1 'where the folder has another name'
rm "$folder/other"
push 3 'where the folder has lost a name' 19
each 0 'behind that push'

# A push that is killed as it comes to sync the folder, or whose sync of it fails: the program that finds what it stored syncs it first.
number=20
for fault in signal=KILL error=EIO; do
    pushed=$(segment "$number")
    strace -f -qq -o calls -e trace=fsync -e "inject=fsync:$fault:when=2" "$top/bin/pgbackrest" "${places[@]}" \
        --lock-path="$room/lock" archive-push "$pushed" >output 2>&1 || true
    each 1 "behind a push with $fault"
    push 3 "behind a push with $fault" $((number + 1))
    each 0 "behind that push"
    number=$((number + 2))
done

chmod 711 repo/archive
chmod 700 repo/archive
each 1 'where a folder above has changed'

# What is no note, as one that is cut or written over in part, counts for nothing.
note=repo/settled.note
cp "$note" kept
for damage in 'printf x >>"$note"' 'truncate -s -1 "$note"' 'printf settles | dd of="$note" conv=notrunc status=none' ': >"$note"'; do
    eval "$damage"
    each 5 "where $damage"
    cat kept >"$note"
done
each 1 'where the note is whole again'
rm "$note"
each 5 'without the note'
[ ! -e "$note" ] || complain 'a command that changes no name wrote the note'
# The root has another name with a new note, and is noted once the clock is past that: at the second push or the one after it.
push 7 'without the note' 24
each 1 'behind the push that made the note'
push 3 'behind the push that made the note' 25
want 0 '' --lock-path="$room/lock" archive-push "$(segment 26)"
push 2 'with the new note' 27

# A file system that leaves a folder's times as they are when it gets a name: the note's state of it says nothing then. Each look at the
# folder is told what the note has.
state=$(grep " $(stat -c %i "$folder") " "$note" | cut -d' ' -f3,4)
[ -n "$state" ] || complain 'the note lacks the folder of the segments'
# (the bytes of struct statx, up to the device)
# shellcheck disable=SC2016,SC2086
looks=$(perl -e '
    my ($path, $seconds, $nanos) = @ARGV;
    my @seen = stat $path;
    print unpack "H*", pack("L<L<Q<L<L<L<S<S<Q<Q<Q<Q<", 0xfff, 4096, 0, @seen[3, 4, 5, 2], 0, @seen[1, 7, 12], 0)
        . pack("q<L<L<", $seconds, $nanos, 0) x 4 . pack("L<4", 0, 0, $seen[0] >> 8, $seen[0] & 255)' "$folder" $state)
make_segments 28 1
strace -qq -y -o calls -P "$room/held/$folder" -e trace=statx,fsync -e inject=statx:poke_exit=@arg5="$looks" "$top/bin/pgbackrest" \
    "${places[@]}" --lock-path="$room/lock" archive-push "$(segment 28)" >output 2>&1 || complain "a push without times ended with $?: $(cat output)"
[ "$(grep -c '^statx(' calls)" -ge 2 ] || complain 'a push does not look at its folder'
[ "$(grep -c '^fsync(' calls)" = 1 ] || complain "where the times say nothing a push syncs its folder $(grep -c '^fsync(' calls) times"

# Who isn't the only one to write into a folder doesn't note it by its own change, as a push that takes away what is no receipt: it comes to
# sync it twice. (The drain that it starts finds the lock held. By the first push the spool has a note.)
unready=$(segment 27)
marks=spool/archive/demo/out
mkdir -p "$marks"
exec 9>>lock/demo-archive.lock
flock 9
for _ in 1 2; do
    printf 'no receipt' >"$marks/$(basename "$unready").ok"
    sleep 0.1
    status=0
    strace -qq -y -o calls -P "$room/$marks" -e trace=fsync -e inject=fsync:delay_exit=20000 "$top/bin/pgbackrest" "${places[@]}" \
        --lock-path="$room/lock" --spool-path="$room/spool" --archive-async --archive-timeout=1 archive-push "$unready" >output 2>&1 9>&- ||
        status=$?
    [ "$status" = 38 ] || complain "a push that nobody stores ended with $status: $(cat output)"
    [ -z "$(ls "$marks")" ] || complain 'a push leaves what is no receipt'
    [ -s spool/settled.note ] || complain 'the spool has no note'
done
exec 9>&-
[ "$(grep -c '^fsync(' calls)" = 2 ] || complain "a push syncs a folder into which others write $(grep -c '^fsync(' calls) times"

# (what follows is so where a sync of a whole file system is believed)
case $(findmnt -no FSTYPE -T "$room") in
ext4 | xfs | btrfs) ;;
*)
    printf 'the folder for checks is on no disk: the syncs of many folders are skipped\n'
    exit "$wrong"
    ;;
esac

# More than eight folders are synced at once, by one sync of their file system that succeeds. Of the two syncs of a stanza that of its
# backups has two folders, which are synced singly.
mkdir -p repo/archive/demo/15-1/00000002000000{00..09}
strace -f -qq -o calls -e trace=execve,fsync,syncfs "$top/bin/pgbackrest" --stanza=demo --repo1-path="$room/held/repo" info >output 2>&1 || complain "info of many folders ended with $?"
for call in '\["/usr/bin/sync", "-f", ' 'syncfs([0-9]*) *= 0'; do
    [ "$(grep -c "$call" calls)" = 1 ] || complain "of many folders there isn't one call of $call"
done
[ "$(grep -c ' fsync(' calls)" = 2 ] || complain "of many folders some are synced singly: $(grep -c ' fsync(' calls)"

# A backup syncs its many folders at once, and notes them. So the next one finds few that it has to sync, and syncs these singly.
rm -r repo/archive/demo/15-1/00000002000000*
for kind in full incr; do
    strace -f -qq -o calls -e trace=fsync,syncfs "$top/bin/pgbackrest" "${places[@]}" --lock-path="$room/lock" --no-online --no-expire-auto \
        --type="$kind" backup >output 2>&1 || complain "a backup of the kind $kind ended with $?"
    [ "$kind" = incr ] || [ "$(grep -c 'syncfs(' calls)" -ge 1 ] || complain 'a backup does not sync its folders at once'
done
[ "$(grep -c 'fsync(' calls)" -ge 1 ] || complain 'a backup behind another one syncs nothing'
[ "$(grep -c 'syncfs(' calls)" = 0 ] || complain 'a backup behind another one syncs the whole file system'
exit "$wrong"
