#!/usr/bin/env bash
# verify of a repository with two backups of a stopped server and some of its log: nothing is reported of it, and each kind of damage by exactly
# its lines. It changes nothing, and needs no data folder.
. "$(dirname "$0")/common"

program() {
    "$top/bin/pgbackrest" --stanza=demo --repo1-path="$room/repo" "$@"
}

back_up() {
    program --pg1-path="$room/pg" --lock-path="$room/lock" --no-online --type=full backup >output || complain "the backup ended with $?"
    label=$(sed -n 's/^INFO: new backup label = //p' output)
}

# The files of a folder, each after its sum.
list() {
    (cd "$1" && find . -type f -exec sha1sum {} + | LC_ALL=C sort)
}

# told LINE..: verify reports exactly these lines and their number, and changes nothing. Then the repository is made whole again.
told() {
    local lines=''
    for line in "$@"; do lines+="$line"$'\n'; done
    list repo >wanted
    want 65 "${lines}ERROR: [065]: $# findings"$'\n' verify
    list repo | cmp -s wanted - || complain "verify changed the repository"
    rm -rf repo
    cp -a whole repo
}

# flip FILE: another byte is at some place of the file.
flip() {
    local at byte
    at=$(shuf -i "0-$(($(stat -c %s "$1") - 1))" -n 1)
    byte=$(od -An -tu1 -j "$at" -N 1 "$1")
    printf '%b' "\\x$(printf %02x $(((byte + 1) % 256)))" | dd of="$1" bs=1 seek="$at" conv=notrunc status=none
}

want 0 '' --pg1-path="$room/pg" --lock-path="$room/lock" --no-online stanza-create
want 0 '' verify
make_segments 16 3
for number in 16 17 18; do
    want 0 '' --pg1-path="$room/pg" --lock-path="$room/lock" archive-push "$(segment "$number")"
done
back_up
first=$label
cp repo/backup/demo/backup.info earlier
back_up
list repo >wanted
want 0 '' verify
list repo | cmp -s wanted - || complain 'verify changed a sound repository'
cp -a repo whole

# A stored segment with another byte, cut, and under two names. One that is lost is needed by no backup of a stopped server.
name=$(basename "$(segment 17)")
stored=$(stored_at "$name" "$(segment 17)")
sum=$(sum_of "$stored")
flip "$stored"
told "${stored#repo/}: checksum $sum, found $(sum_of "$stored")"
truncate -s -1 "$stored"
told "${stored#repo/}: checksum $sum, found $(sum_of "$stored")"
printf 'another' >other
cp other "$(stored_at "$name" other)"
told "$(printf '%s\n' "${stored#repo/}" "$(stored_at "$name" other)" | sed 's/^repo.//' | LC_ALL=C sort | tail -n 1): second name of $name"
rm "$stored"
want 0 '' verify
cp "whole/${stored#repo/}" "$stored"

# Some files of backups, each with another byte, cut, and lost.
(cd repo/backup/demo && find . -path '*/pg_data/*' -type f -size +0) | sed 's/^..//' | shuf -n 5 >files
while read -r file; do
    place=backup/demo/$file
    sum=$(sum_of "repo/$place")
    size=$(stat -c %s "repo/$place")
    flip "repo/$place"
    told "$place: checksum $sum, found $(sum_of "repo/$place")"
    truncate -s "$((size / 2))" "repo/$place"
    told "$place: short, $((size / 2)) of $size bytes"
    rm "repo/$place"
    told "$place: absent"
done <files

# Each member, lost and broken.
for pair in archive/demo/archive.info backup/demo/backup.info "backup/demo/$first/backup.manifest" "backup/demo/$label/backup.manifest"; do
    for member in "$pair" "$pair.copy"; do
        rm "repo/$member"
        told "$member: member absent"
        printf 'x' >"repo/$member"
        told "$member: member not valid"
        flip "repo/$member"
        told "$member: member not valid"
    done
done

# Members that are valid and differ, a manifest that is another backup's, and a backup without its folder.
cp earlier repo/backup/demo/backup.info.copy
told 'backup/demo/backup.info: members differ'
cp "repo/backup/demo/$first/backup.manifest" "repo/backup/demo/$label/backup.manifest"
cp "repo/backup/demo/$first/backup.manifest" "repo/backup/demo/$label/backup.manifest.copy"
told "backup/demo/$label/backup.manifest: unlike its entry"
rm -r "repo/backup/demo/$first"
told "backup/demo/$first/backup.manifest: member absent" "backup/demo/$first/backup.manifest.copy: member absent"

# Several at once, in order.
rm repo/archive/demo/archive.info.copy "repo/backup/demo/$first/backup.manifest"
flip "$stored"
told "${stored#repo/}: checksum $(sum_of "whole/${stored#repo/}"), found $(sum_of "$stored")" \
    'archive/demo/archive.info.copy: member absent' "backup/demo/$first/backup.manifest: member absent"

# A pair without a valid member, and no stanza.
printf 'x' >repo/backup/demo/backup.info
printf 'x' >repo/backup/demo/backup.info.copy
want 22 "ERROR: [022]: info 'backup/demo/backup.info' is damaged: line 1 / line 1
" verify
rm -r repo
want 21 "ERROR: [021]: stanza 'demo' does not exist
" verify
exit "$wrong"
