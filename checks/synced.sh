#!/usr/bin/env bash
# What is on the disk when, seen by strace: all of a restore before the control file gets its name, and the name then; all of a backup
# before it is listed; by which syncs, where a whole file system's can't be relied on; and that a restore whose sync fails is none.
. "$(dirname "$0")/common"
calls=execve,open,openat,creat,mkdir,mkdirat,rename,renameat,renameat2,link,linkat,unlink,unlinkat,rmdir,ftruncate
calls=$calls,write,writev,pwrite64,copy_file_range,fsync,fdatasync,syncfs,sync
if ! strace -f -qq -y -o calls -e trace="$calls" true 2>/dev/null; then
    printf 'strace is not here: skipped\n'
    exit 77
fi
# (no server runs in it, so a part of it will do)
rm -r pg/base/4 pg/base/5
memory=
trap 'for place in $memory; do umount "$place"; done; rm -rf "$room"' EXIT
ours=("$top/bin/pgbackrest" --no-config --stanza=demo)
backup=(--pg1-path="$room/pg" --lock-path="$room/lock" --no-online --no-expire-auto --type=full backup)

# traced WORD..: the program ends with 0, and its calls are known.
traced() {
    strace -f -qq -y -s 300 -o calls -e trace="$calls" "${ours[@]}" "$@" >output 2>errors || complain "$* ended with $?: $(cat output errors)"
    label=$(sed -n 's/^INFO: new backup label = //p' output)
}

# The calls, each as one line when it has ended.
ended() {
    awk '
        { pid = $1; sub(/^[0-9]+ +/, "") }
        / <unfinished \.\.\.>$/ { sub(/ <unfinished \.\.\.>$/, ""); begun[pid] = $0; next }
        /^<\.\.\. [a-z0-9_]+ resumed>/ { sub(/^<\.\.\. [a-z0-9_]+ resumed>/, ""); $0 = begun[pid] $0 }
        !/ = -1 E/ { print }
    ' calls
}

# unsynced ROOT LAST EACH: of what was changed at and below the root that which isn't on the disk as LAST gets its name, and that which
# isn't at the end. A sync of the whole file system counts unless EACH is y; then a file whose first sync is by another opening isn't
# enough.
unsynced() {
    ended | awk -v root="$1" -v last="$2" -v each="$3" '
        function outer(path) { sub(/\/[^\/]*$/, "", path); return path }
        function change(path) { if (path == root || index(path, root "/") == 1) dirty[path] = 1 }
        function tell(when,    path) { for (path in dirty) print when ": " path }
        {
            name = $0
            sub(/\(.*/, "", name)
            split($0, quoted, "\"")
            held = $0
            sub(/^[a-z0-9_]+\([0-9]+</, "", held)
            sub(/>.*/, "", held)
        }
        name ~ /^(open|openat|creat)$/ && /O_CREAT/ {
            if (!(quoted[2] in dirty)) opened[quoted[2]] = 0
            change(quoted[2]); change(outer(quoted[2]))
        }
        name ~ /^(open|openat|creat)$/ && /O_WRONLY|O_RDWR/ { opened[quoted[2]]++ }
        name ~ /^(mkdir|mkdirat|link|linkat)$/ { change(quoted[2]); change(outer(quoted[2])) }
        name ~ /^(unlink|unlinkat|rmdir)$/ { delete dirty[quoted[2]]; change(outer(quoted[2])) }
        name ~ /^(write|writev|pwrite64|copy_file_range|ftruncate)$/ { change(held) }
        name ~ /^rename/ {
            change(outer(quoted[2])); change(outer(quoted[4]))
            if (quoted[4] == last) {
                named++
                # (its folder has just changed, and is synced after this)
                delete dirty[outer(last)]
                tell("as " last " gets its name")
            }
            if (quoted[2] in dirty) { delete dirty[quoted[2]]; change(quoted[4]) }
            if (quoted[4] == last) change(outer(last))
        }
        name ~ /^(fsync|fdatasync)$/ {
            if (each == "y" && (held in dirty) && opened[held] > 1) print "opened again: " held
            delete dirty[held]
        }
        name == "syncfs" && each != "y" { delete dirty }
        END {
            tell("at the end")
            if (named == 0) print "never named: " last
        }
    '
}

# synced WHAT ROOT LAST EACH
synced() {
    unsynced "$2" "$3" "$4" >found
    [ ! -s found ] || complain "$1: $(wc -l <found) aren't synced, $(head -n 3 found | tr '\n' ' ')"
}

want_stanza() {
    "${ours[@]}" --repo1-path="$1" --pg1-path="$room/pg" --lock-path="$room/lock" --no-online stanza-create >output 2>errors ||
        complain "stanza-create in $1 ended with $?: $(cat output errors)"
}

# A program of this name that comes first in PATH isn't the system's.
mkdir strange
printf '#!/bin/sh\necho called >>%s/strange/called\nexit 0\n' "$room" >strange/sync
chmod 755 strange/sync
system=$PATH
PATH=$room/strange:$PATH

# A backup, and its control file, which is read until two readings are the same.
repo=$room/repo
want_stanza "$repo"
traced --repo1-path="$repo" "${backup[@]}"
synced 'a backup' "$repo/backup/demo/$label" "$repo/backup/demo/backup.info" n
strace -f -qq -y -o calls -e trace=read,pread64,preadv "${ours[@]}" --repo1-path="$repo" "${backup[@]}" >output 2>errors ||
    complain "a backup ended with $?: $(cat output)"
readings=$(grep -F "<$room/pg/global/pg_control>" calls | cut -d' ' -f1 | sort | uniq -c | sort -n | tail -n 1 | awk '{ print $1 + 0 }')
[ "${readings:-0}" -ge 2 ] || complain "who stores the control file reads it ${readings:-0} times"

# A restore into a new folder, and one of a few files.
traced --repo1-path="$repo" --pg1-path="$room/new" restore
synced 'a restore' "$room/new" "$room/new/global/pg_control" n
printf 'x' >>new/PG_VERSION
printf 'x' >>new/base/1/PG_VERSION
traced --repo1-path="$repo" --pg1-path="$room/new" --delta restore
synced 'a restore of a few files' "$room/new" "$room/new/global/pg_control" n
[ ! -e strange/called ] || complain "another program than the system's was asked to sync"
PATH=$system

# fails FOLDER: where a sync of this folder fails, a restore does.
fails() {
    local status=0
    rm -rf failed
    mkdir failed
    strace -f -qq -o /dev/null -P "$1" -e trace=fsync,fdatasync,syncfs -e inject=fsync,fdatasync,syncfs:error=EIO \
        "${ours[@]}" --repo1-path="$repo" --pg1-path="$room/failed" restore >output 2>errors || status=$?
    [ "$status" = 82 ] || complain "a restore ended with $status and not 82, as $1 wasn't synced: $(cat output)"
}
fails "$room/failed/global"
fails "$room/failed"
[ ! -e failed/global/pg_control ] || complain 'a control file is there, though its folder is not synced'

# A repository's root that a stanza-create made before it was killed: the next one syncs the folder that holds it.
create=(--repo1-path="$room/deep/below/repo" --pg1-path="$room/pg" --lock-path="$room/lock" --no-online stanza-create)
{
    strace -f -qq -o /dev/null -e trace=fsync -e inject=fsync:signal=KILL:when=1 "${ours[@]}" "${create[@]}" || true
} >output 2>&1
[ -d deep/below/repo ] || mkdir -p deep/below/repo
traced "${create[@]}"
ended >found
grep -q -e "^fsync([0-9]*<$room/deep/below>) = 0" -e '^syncfs(' found || complain 'the folder that holds a new repository is never synced'

# mounted FOLDER: a file system in memory there, whose sync says nothing of the files.
mounted() {
    mkdir -p "$1"
    if [ "$(id -u)" = 0 ] && mount -t tmpfs none "$1" 2>/dev/null; then
        memory="$room/$1 $memory"
    else
        printf 'no file system in memory can be mounted: %s is skipped\n' "$1"
        return 1
    fi
}
# The repository in it, and a restore into it.
if mounted memory; then
    want_stanza "$room/memory/repo"
    traced --repo1-path="$room/memory/repo" "${backup[@]}"
    synced 'a backup in memory' "$room/memory/repo/backup/demo/$label" "$room/memory/repo/backup/demo/backup.info" y
    traced --repo1-path="$repo" --pg1-path="$room/memory/new" restore
    synced 'a restore in memory' "$room/memory/new" "$room/memory/new/global/pg_control" y
fi
# The backups alone in it.
if mounted other/backup; then
    want_stanza "$room/other"
    traced --repo1-path="$room/other" "${backup[@]}"
    synced 'a backup in another file system than the root' "$room/other/backup/demo/$label" "$room/other/backup/demo/backup.info" y
    mkdir other/backup/demo/x{01..12}
    traced --repo1-path="$room/other" info
    ended >found
    for folder in demo demo/x{01..12}; do
        grep -q "^fsync([0-9]*<$room/other/backup/$folder>) = 0" found || complain "$folder in another file system isn't synced"
    done
fi
exit "$wrong"
