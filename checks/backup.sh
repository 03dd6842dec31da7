#!/usr/bin/env bash
# backup of a stopped cluster of PostgreSQL 15: the files of the label's folder are the cluster's, byte by byte, and its manifest lists
# each with its sum; what is refused leaves the list as it was; an incremental one stores what changed; and one that was killed hurts
# nothing.
. "$(dirname "$0")/common"

program() {
    "$top/bin/pgbackrest" --stanza=demo --pg1-path="$room/pg" --repo1-path="$room/repo" --lock-path="$room/lock" "$@"
}

full=(--no-online --type=full)

# back_up OPTION..: a full backup, whose label is then in `label`.
back_up() {
    program "${full[@]}" "$@" backup >output 2>errors || complain "the backup ended with $?: $(cat output errors)"
    label=$(sed -n 's/^INFO: new backup label = \([0-9]\{8\}-[0-9]\{6\}F\)$/\1/p' output)
    [ "$(wc -l <output)" = 1 ] && [ -n "$label" ] || complain "the backup wrote '$(cat output)'"
    [ ! -s errors ] || complain "the backup wrote to standard error: $(cat errors)"
}

# The files of the cluster that a backup takes: not those that a server makes anew.
taken() {
    (cd pg && find . -type f ! -path './pg_subtrans/*' ! -path './pg_notify/*' "$@" | LC_ALL=C sort)
}

# compare LABEL: the files of this backup are those of the cluster.
compare() {
    local folder=repo/backup/demo/$1 path sum size
    taken -size +0 >wanted
    (cd "$folder/pg_data" && find . -type f | LC_ALL=C sort) >found
    cmp -s wanted found || complain "$1 has other files: $(diff wanted found | head -n 5)"
    while read -r path; do
        cmp -s "pg/$path" "$folder/pg_data/$path" || complain "$path isn't stored as it is"
    done <found
    # Each as `pg_data/PATH={"checksum":"SUM","size":BYTES,`, and so in the manifest, except for the time.
    taken -exec sha1sum {} + | while read -r sum path; do
        printf 'pg_data/%s={"checksum":"%s","size":%s\n' "${path#./}" "$sum" "$(stat -c %s "pg/$path")"
    done | LC_ALL=C sort >wanted
    sed -n 's/^\(pg_data\/.*={"checksum":"[0-9a-f]*","size":[0-9]*\),"timestamp":[0-9]*}$/\1/p' "$folder/backup.manifest" | LC_ALL=C sort >found
    cmp -s wanted found || complain "the manifest of $1 tells other files: $(diff wanted found | head -n 5)"
    cmp -s "$folder/backup.manifest" "$folder/backup.manifest.copy" || complain "the members of the manifest of $1 differ"
    [ -z "$(find "$folder" -type f ! -perm 600)" ] || complain 'a file has another mode than 600'
}

# bundled LABEL: each file that the manifest states in a bundle has its bytes there, and none of its own; and nothing else is there.
bundled() {
    local folder=repo/backup/demo/$1 number at size path sum=0
    sed -n 's/^pg_data\/\(.*\)={"bni":\([0-9]*\),"bno":\([0-9]*\),"checksum":"[0-9a-f]*","size":\([0-9]*\),"timestamp":[0-9]*}$/\2 \3 \4 \1/p' \
        "$folder/backup.manifest" >places
    [ "$(wc -l <places)" -gt 100 ] || complain "$1 has $(wc -l <places) files in bundles"
    while read -r number at size path; do
        dd "if=$folder/bundle/$number" iflag=skip_bytes,count_bytes "skip=$at" "count=$size" bs=1M status=none | cmp -s - "pg/$path" ||
            complain "$path isn't in bundle $number at $at as it is"
        [ ! -e "$folder/pg_data/$path" ] || complain "$path is stored beside its bundle too"
        sum=$((sum + size))
    done <places
    [ "$(cat "$folder"/bundle/* | wc -c)" = "$sum" ] || complain "the bundles of $1 have other bytes than its files"
    [ -f "$folder/pg_data/global/pg_control" ] || complain "$1 has no control file of its own"
}

# is_listed LABEL: info lists it.
is_listed() {
    "$top/bin/pgbackrest" --stanza=demo --repo1-path="$room/repo" info | grep "full backup: $1$" >/dev/null
}

# The list as the info file states it.
listed() {
    sed -n '/^\[backup:current\]$/,/^$/p' repo/backup/demo/backup.info
}

want 21 "ERROR: [021]: stanza 'demo' does not exist
" "${full[@]}" backup
want 0 '' --no-online stanza-create
back_up
compare "$label"
is_listed "$label" || complain "info doesn't list $label"
first=$label
back_up --process-max=3
compare "$label"
[ "$label" != "$first" ] || complain "two backups have the label $label"
is_listed "$first" && is_listed "$label" || complain 'info lists other backups'
cmp -s repo/backup/demo/backup.info repo/backup/demo/backup.info.copy || complain "the members of the list's pair differ"

# With bundles each small file has its bytes at the place that the manifest states, and these fill the bundles.
plain=$label
sleep 1
back_up --repo1-bundle --repo1-bundle-size=4MiB
bundled "$label"
is_listed "$label" || complain "info doesn't list $label"
rm -rf new
"$top/bin/pgbackrest" --stanza=demo --pg1-path="$room/new" --repo1-path="$room/repo" --type=none restore >output 2>errors || complain "the restore of $label ended with $?"
(cd new && find . -type f ! -path './pg_subtrans/*' ! -path './pg_notify/*' -exec sha1sum {} + | LC_ALL=C sort) >found
taken -exec sha1sum {} + | LC_ALL=C sort | cmp -s - found || complain "$label is restored as another folder"
back_up
compare "$label"
[ "$plain" != "$label" ] || complain "two backups have the label $label"

# What is refused lists nothing.
listed >kept
refuse() {
    want "$1" "$2" "${full[@]}" backup
    listed | cmp -s kept - || complain "the list changed at status $1"
}
touch pg/postmaster.pid
refuse 41 'ERROR: [041]: postmaster.pid is there
'
rm pg/postmaster.pid
ln -s base pg/elsewhere
refuse 44 "ERROR: [044]: 'elsewhere' is a link
"
rm pg/elsewhere
touch "pg/a=b"
refuse 45 "ERROR: [045]: name 'a=b' is refused
"
rm "pg/a=b"
mv pg/global/pg_control control
refuse 28 "ERROR: [028]: 'global/pg_control' is missing
"
mv control pg/global/pg_control
mkdir -p lock
if command -v flock >/dev/null; then
    {
        flock -n 9
        refuse 20 "ERROR: [020]: lock 'demo-backup.lock' is held
"
    } 9>lock/demo-backup.lock
fi

# An incremental backup stores what changed, and the control file.
echo further >pg/base/1/99999
program --no-online --type=incr --no-expire-auto backup >output 2>errors || complain "the incremental backup ended with $?: $(cat output errors)"
later=$(sed -n 's/^INFO: new backup label = \([0-9]\{8\}-[0-9]\{6\}F_[0-9]\{8\}-[0-9]\{6\}I\)$/\1/p' output)
[ "${later%_*}" = "$label" ] || complain "the incremental backup wrote '$(cat output)'"
(cd "repo/backup/demo/$later/pg_data" && find . -type f | LC_ALL=C sort) >found
printf '%s\n' ./base/1/99999 ./global/pg_control | cmp -s - found || complain "$later has other files: $(cat found)"

# A backup that is killed at any moment leaves a list of whole backups, and the next one succeeds.
for moment in 0.02 0.05 0.1 0.2 0.4; do
    program "${full[@]}" backup >output 2>errors &
    sleep "$moment"
    kill_program
    wait $! 2>/dev/null || true
    for one in $(listed | sed -n 's/^\([0-9]*-[0-9]*F\)=.*/\1/p'); do
        [ -f "repo/backup/demo/$one/backup.manifest" ] || complain "$one is listed without its manifest"
    done
done
back_up
compare "$label"
is_listed "$first" && is_listed "$label" || complain 'info lists other backups after the kills'
exit "$wrong"
