#!/usr/bin/env bash
# backup of a running server of PostgreSQL 15 under load, of each kind, whose log is archived by archive-push: each file of the label's
# folder, and each that is left of a backup before, by its time or its digest, has the sum that the manifest states, the log of its span
# is archived, and the backup is restored and recovers to the end of the archive. What is refused leaves the list as it was, and the
# server in no backup.
. "$(dirname "$0")/server"

# The server starts this program by its name.
export PATH=$room:$PATH

online=(--start-fast)

# The list as the info file states it.
listed() {
    sed -n '/^\[backup:current\]$/,/^$/p' repo/backup/demo/backup.info
}

is_listed() {
    program info | grep "$1 backup: $2$" >/dev/null
}

# back_up KIND OPTION..: a backup of this kind, whose label is then in `label`.
back_up() {
    local kind=$1 second='[0-9]\{8\}-[0-9]\{6\}'
    shift
    program "${online[@]}" "--type=$kind" "$@" backup >output 2>errors || complain "the backup ended with $?: $(cat output errors)"
    label=$(sed -n "s/^INFO: new backup label = \($second"F"\(_$second[DI]\)\{0,1\}\)\$/\1/p" output)
    [ "$(wc -l <output)" = 1 ] && [ -n "$label" ] || complain "the backup wrote '$(cat output)'"
    [ ! -s errors ] || complain "the backup wrote to standard error: $(cat errors)"
}

# check_files LABEL: the files in the folder are those that the manifest lists with bytes, each with its size and sum; and those that it
# has of other backups lie in their folders, each with its sum.
check_files() {
    local folder=repo/backup/demo/$1
    sed -n 's/^pg_data\/\(.*\)={"checksum":"\([0-9a-f]*\)","size":\([0-9]*\),"timestamp":[0-9]*}$/\2 \3 \1/p' "$folder/backup.manifest" |
        grep -v '^[0-9a-f]* 0 ' | LC_ALL=C sort >wanted
    (cd "$folder/pg_data" && find . -type f -exec sha1sum {} + | while read -r sum path; do
        printf '%s %s %s\n' "$sum" "$(stat -c %s "$path")" "${path#./}"
    done) | LC_ALL=C sort >found
    [ -s wanted ] && cmp -s wanted found || complain "$1 has other files than its manifest tells: $(diff wanted found | head -n 5)"
    sed -n 's/^pg_data\/\(.*\)={"checksum":"\([0-9a-f]*\)","reference":"\([^"]*\)",.*}$/\2  repo\/backup\/demo\/\3\/pg_data\/\1/p' \
        "$folder/backup.manifest" >left
    [ ! -s left ] || sha1sum --quiet --check left || complain "what $1 has of other backups isn't there"
    cmp -s "$folder/backup.manifest" "$folder/backup.manifest.copy" || complain "the members of the manifest of $1 differ"
    grep -q '^START WAL LOCATION: ' "$folder/pg_data/backup_label" || complain "$1 has no label file of the server"
    grep -q '^pg_data/pg_wal/.*={' "$folder/backup.manifest" && complain "$1 has files of the log"
    grep -q '^pg_data/global/pg_control={' "$folder/backup.manifest" || complain "$1 has no control file"
}

# check_bundles LABEL: what the manifest states in bundles lies there, in those of the backup that has it, each file with its sum.
check_bundles() {
    local sum number at of size
    sed -n 's/^pg_data\/.*={"bni":\([0-9]*\),"bno":\([0-9]*\),"checksum":"\([0-9a-f]*\)",\("reference":"\([^"]*\)",\)\{0,1\}"size":\([0-9]*\),.*}$/\3 \1 \2 \6 \5/p' \
        "repo/backup/demo/$1/backup.manifest" >places
    [ -s places ] || complain "$1 has no file in a bundle"
    while read -r sum number at size of; do
        [ "$(dd "if=repo/backup/demo/${of:-$1}/bundle/$number" iflag=skip_bytes,count_bytes "skip=$at" "count=$size" bs=1M status=none | sha1sum)" = "$sum  -" ] ||
            complain "in bundle $number of ${of:-$1} at $at are other bytes than $1 states"
    done <places
}

# check_span LABEL: the segments at which its log starts and stops are archived.
check_span() {
    local name
    for name in $(sed -n 's/.*"backup-archive-st[a-z]*":"\([0-9A-F]\{24\}\)".*/\1/p' "repo/backup/demo/$1/backup.manifest") \
        $(sed -n 's/^backup-archive-st[a-z]*="\([0-9A-F]\{24\}\)"$/\1/p' "repo/backup/demo/$1/backup.manifest"); do
        compgen -G "repo/archive/demo/15-1/${name:0:16}/$name-*" >/dev/null || complain "segment $name of $1 isn't archived"
        spans=$((spans + 1))
    done
}

configure
printf "[global:backup]\nrepo1-path=%s/repo\npg1-socket-path=%s/socket\n" "$room" "$room" >>conf
want 0 '' stanza-create
start_server
"${as[@]}" "$tools/pgbench" -h "$room/socket" -U postgres -i -s 5 -q postgres >/dev/null 2>&1 || complain 'pgbench made no tables'
"${as[@]}" "$tools/pgbench" -h "$room/socket" -U postgres -n -c 2 -T 600 postgres >/dev/null 2>&1 &
load=$!

spans=0
labels=()
for kind in full full diff incr incr; do
    back_up "$kind" --process-max=3
    check_files "$label"
    check_span "$label"
    is_listed "$kind" "$label" || complain "info doesn't list $label"
    if [ "$kind" = full ]; then
        [ ! -s left ] || complain "the full backup $label refers to others"
    else
        # Most of the cluster stays under this load: what is copied again is the lesser part.
        [ "$(wc -l <left)" -gt "$(wc -l <found)" ] || complain "$label leaves $(wc -l <left) files and has $(wc -l <found)"
    fi
    labels+=("$label")
done

# By digests a file is left whose time alone is another, and one is stored that has the listed size and time, and other bytes.
"${as[@]}" touch pg/pg_hba.conf
was=$(stat -c %y pg/pg_ident.conf)
"${as[@]}" sed -i '1s/^# P/# Q/' pg/pg_ident.conf
"${as[@]}" touch -d "$was" pg/pg_ident.conf
back_up incr --delta --process-max=3
check_files "$label"
check_span "$label"
is_listed incr "$label" || complain "info doesn't list $label"
[ "$(wc -l <left)" -gt "$(wc -l <found)" ] || complain "by digests $label leaves $(wc -l <left) files and has $(wc -l <found)"
grep -q '/pg_data/pg_hba\.conf$' left || complain "$label stores a file again whose bytes are the same"
cmp -s "repo/backup/demo/$label/pg_data/pg_ident.conf" pg/pg_ident.conf || complain "$label leaves a file whose bytes are others"
labels+=("$label")
# A chain whose small files are stored together, on the one before, and a full backup of its own.
for kind in incr full diff incr; do
    back_up "$kind" --repo1-bundle --process-max=3
    check_files "$label"
    check_bundles "$label"
    [ "$kind" != full ] || [ "$(wc -l <places)" -gt 100 ] || complain "the full backup $label has $(wc -l <places) files in bundles"
    check_span "$label"
    is_listed "$kind" "$label" || complain "info doesn't list $label"
    labels+=("$label")
done
[ "$(printf '%s\n' "${labels[@]}" | sort -u | wc -l)" = 10 ] || complain "two backups have one label: ${labels[*]}"
[ "$spans" -ge 12 ] || complain "the manifests tell $spans segments"

# What is refused lists nothing, and the server isn't in a backup afterwards.
listed >kept
refuse() {
    local status=$1 output=$2
    shift 2
    want "$status" "$output" "${online[@]}" --type=full "$@" backup
    listed | cmp -s kept - || complain "the list changed at status $status"
}
refuse 48 'ERROR: [048]: server: [3D000] database "none" does not exist
' --pg1-database=none
refuse 83 'ERROR: [083]: server connection failed
' --pg1-port=5433
"${as[@]}" ln -s base pg/elsewhere
refuse 44 "ERROR: [044]: 'elsewhere' is a link
"
rm pg/elsewhere

# A log that isn't archived in time: after that many waits the first segment that is missing is reported.
ask "alter system set archive_command = 'false'" >/dev/null
ask 'select pg_reload_conf()' >/dev/null
sleep 1
status=0
program "${online[@]}" --archive-timeout=2 backup >output 2>errors || status=$?
[ "$status" = 42 ] && grep -q '^ERROR: \[042\]: segment [0-9A-F]\{24\} not archived after 2 turns$' output || complain "a late segment is told as $(cat output)"
listed | cmp -s kept - || complain 'a backup whose log is not archived is listed'
ask 'alter system reset archive_command' >/dev/null
ask 'select pg_reload_conf()' >/dev/null

kill "$load" 2>/dev/null || true
wait "$load" 2>/dev/null || true
switch >/dev/null
await
rows=$(ask 'select count(*) from pgbench_history')
money=$(ask 'select sum(abalance) from pgbench_accounts')
stop_server immediate

# The cluster is lost, and a backup put in its place: with the log that was archived since, nothing is missing.
for one in "${labels[0]}" "${labels[@]:2}"; do
    mv pg "lost-$one"
    mkdir pg
    chown --reference="lost-$one" pg
    chmod 700 pg
    "${as[@]}" "${ours[@]}" --set="$one" restore >output 2>errors || complain "the restore of $one ended with $?: $(cat output errors)"
    start_server
    [ "$(ask 'select count(*) from pgbench_history')" = "$rows" ] || complain "of $rows rows others came back with $one"
    [ "$(ask 'select sum(abalance) from pgbench_accounts')" = "$money" ] || complain "the balances are others with $one"
    ask 'select count(*) from pg_class, lateral pg_relation_size(oid)' >/dev/null || complain "a relation of $one can't be read"
    await
    stop_server fast
done
exit "$wrong"
