#!/usr/bin/env bash
# Where the program meets the system, row by row: no stanza is made over the files of another one, a server that recovers stops where
# a file can't be fetched, another cluster's files are left alone, a restored server finds the repository again, and root leaves
# nothing that the server's user can't read.
. "$(dirname "$0")/common"
# (no server runs in it, so a part of it will do)
rm -r pg/base/4 pg/base/5
room=$(pwd -P)
cat >conf <<END
[global]
repo1-path=$room/repo
lock-path=$room/lock

[global:stanza-create]
online=n

[global:backup]
online=n

[demo]
pg1-path=$room/pg
END
ours=("$top/bin/pgbackrest" --config="$room/conf" --stanza=demo)
log=archive/demo/15-1/0000000100000000

# In which folder the program runs.
folder=$room
program() {
    (cd "$folder" && "${ours[@]}" "$@")
}

# The repository and the data folders, without the files by which commands remember what was synced.
look() {
    { find repo pg other lock -name settled.note -o -name '*.lock' -o -type d -printf '%p %m %U\n' -o \
        -printf '%p %y %m %U %i %s %T@\n' 2>/dev/null || true; } | LC_ALL=C sort
}

# refuse STATUS OUTPUT WORD..: the program ends so, and leaves the repository and the data folders as they were.
refuse() {
    look >before
    want "$@"
    look >after
    cmp -s before after || complain "${*:3} changed what is there: $(diff before after | head -n 4)"
}

# ends_well WORD..: the program ends with 0, whatever it writes.
ends_well() {
    program "$@" >output 2>errors || complain "$* ended with $?: $(cat output errors)"
}

# The name in the repository at which the segment of this number is stored.
stored_name() {
    (cd repo && printf %s "$log/$(basename "$(segment "$1")")"-*)
}

make_segments 16 1
rm pg/pg_wal/000000010000000000000001
name=$(basename "$(segment 16)")
want 0 '' stanza-create
want 0 '' archive-push "$(segment 16)"
ends_well --type=full backup
label=$(sed -n 's/^INFO: new backup label = //p' output)

# lost NAME PATH..: without these paths and without its info files the repository isn't taken for a new one: it holds this file.
cp -a repo whole
lost() {
    local left=$1
    shift
    rm -r repo
    cp -a whole repo
    (cd repo && rm -rf "$@" && find . -name '*.info*' -delete)
    refuse 29 "ERROR: [029]: info files are missing, repository holds '$left'
" stanza-create
}
first=$(stored_name 16)
lost "$first" "backup/demo/$label"
lost "$first" none
lost "backup/demo/$label/backup.manifest" archive/demo/15-1
printf '1\t0/3000000\tno recovery target specified\n' >whole/archive/demo/15-1/00000002.history
lost archive/demo/15-1/00000002.history "$log" "backup/demo/$label"
rm -r repo whole/archive/demo/15-1/00000002.history
mv whole repo

# recovers STATUS WORD..: archive-get ends so for a server that doesn't recover and for a standby, and with 126 for one that recovers,
# which stops there. It has the same line, and one on standard error.
recovers() {
    local signals status ended wanted=$1
    shift
    for signals in '' standby recovery 'recovery standby'; do
        rm -f pg/*.signal pg/pg_wal/RECOVERYXLOG
        for kind in $signals; do touch "pg/$kind.signal"; done
        ended=$wanted
        if [ "$signals" = recovery ] && [ "$wanted" -gt 1 ]; then ended=126; fi
        status=0
        (cd pg && "$top/bin/pgbackrest" --stanza=demo "$@") >output 2>errors || status=$?
        [ "$status" = "$ended" ] || complain "$* with '$signals' ended with $status and not $ended"
        # (a configuration that can't be read is said there in any case, since it may ask for that)
        case $ended in
        86) ;;
        126) grep -q "^ERROR: .*(status $wanted)\$" errors ;;
        *) [ ! -s errors ] ;;
        esac || complain "$* with '$signals' wrote to standard error: '$(cat errors)'"
        case $wanted in
        0) [ ! -s output ] ;;
        1) grep -q '^INFO: unable to find ' output ;;
        *) grep -q "^ERROR: \[$(printf %03d "$wanted")\]: " output ;;
        esac || complain "$* with '$signals' wrote '$(cat output)'"
    done
    rm -f pg/*.signal pg/pg_wal/RECOVERYXLOG
}
by_conf=(--config="$room/conf")
get=(archive-get "$name" pg_wal/RECOVERYXLOG)
file=repo/$first
recovers 0 "${by_conf[@]}" "${get[@]}"
recovers 1 "${by_conf[@]}" archive-get 0000000100000000000000FE pg_wal/RECOVERYXLOG
recovers 4 "${by_conf[@]}" --other "${get[@]}"
recovers 6 "${by_conf[@]}" --archive-async=maybe "${get[@]}"
recovers 7 --no-config "${get[@]}"
recovers 10 --config="$room/none" "${get[@]}"
recovers 11 "${by_conf[@]}" archive-get "$name"
recovers 12 "${by_conf[@]}" archive-get "$name" ../RECOVERYXLOG
recovers 21 "${by_conf[@]}" --repo1-path="$room/none" "${get[@]}"
recovers 21 "${by_conf[@]}" --repo1-path="$room/none" --archive-async --spool-path="$room/spool" "${get[@]}"
recovers 82 "${by_conf[@]}" archive-get "$name" pg_wal/archive_status
recovers 86 --config="$room" "${get[@]}"
cp -p "$file" kept
printf 'other bytes' | dd of="$file" bs=1 seek=9000 conv=notrunc status=none
recovers 35 "${by_conf[@]}" "${get[@]}"

# What isn't a plain file at a stored name is never an absent one.
for target in kept none; do
    ln -sfn "$room/$target" "$file"
    recovers 80 "${by_conf[@]}" "${get[@]}"
    refuse 80 'ERROR: [080]: repository failed
' archive-push "$(segment 16)"
done
rm "$file"
cp -p kept "$file"
mv "repo/$log" aside
ln -s "$room/aside" "repo/$log"
status=0
program "${get[@]}" >output 2>errors || status=$?
[ "$status" != 1 ] || complain 'a segment in a linked folder is taken for an absent one'
rm -f pg/pg_wal/RECOVERYXLOG "repo/$log"
mv aside "repo/$log"

# A link in place of the stanza's own folder is followed by all commands.
make_segments 21 1
for part in archive backup; do
    mv "repo/$part/demo" "$part-elsewhere"
    ln -s "$room/$part-elsewhere" "repo/$part/demo"
done
want 0 '' archive-push "$(segment 21)"
cmp -s "$(segment 21)" archive-elsewhere/15-1/0000000100000000/"$(basename "$(segment 21)")"-* || complain 'a push stores nothing behind a link'
want 0 '' "${get[@]}"
cmp -s kept pg/pg_wal/RECOVERYXLOG || complain 'other bytes are served behind a link'
want 1 'INFO: unable to find 0000000100000000000000FE in the archive
' archive-get 0000000100000000000000FE pg_wal/RECOVERYXLOG
ends_well --type=full backup
[ "$(find backup-elsewhere -name backup.manifest | wc -l)" = 2 ] || complain 'a backup is not behind the link'
ends_well info
[ "$(grep -c 'full backup: ' output)" = 2 ] || complain "info behind a link: $(cat output)"
want 0 '' verify
ends_well --repo1-retention-full=1 expire
[ "$(find backup-elsewhere -name backup.manifest | wc -l)" = 1 ] || complain 'expire leaves a backup behind the link'
for part in archive backup; do
    rm "repo/$part/demo"
    mv "$part-elsewhere" "repo/$part/demo"
done
rm -f "$(segment 21)" pg/pg_wal/RECOVERYXLOG

# The working directory is another cluster than that of the option.
make_segments 17 1
cp -a pg other
ln -s pg linked
folder=other
is_other='ERROR: [032]: working directory is not the same as option pg1-path
'
pushed=pg_wal/$(basename "$(segment 17)")
refuse 32 "$is_other" archive-push "$pushed"
refuse 32 "$is_other" --archive-async --archive-timeout=2 --spool-path="$room/spool" archive-push "$pushed"
refuse 32 "$is_other" "${get[@]}"
touch other/standby.signal
refuse 32 "$is_other" "${get[@]}"
mv other/standby.signal other/recovery.signal
look >before
status=0
program "${get[@]}" >output 2>errors || status=$?
look >after
cmp -s before after || complain 'a fetch for another cluster changed what is there'
[ "$status" = 126 ] || complain "a fetch for another cluster that recovers ended with $status and not 126"
printf %s "$is_other" | cmp -s - output || complain "a fetch for another cluster wrote '$(cat output)'"
# The same cluster by another path, and a folder that is no cluster.
for folder in linked pg lock; do
    for path in pg linked; do
        rm -f pg/pg_wal/RECOVERYXLOG
        want 0 '' --pg1-path="$room/$path" "${get[@]}"
    done
done
folder=linked
want 0 '' archive-push "$pushed"
folder=$room
rm -r pg/pg_wal/RECOVERYXLOG "$(segment 17)" linked other

# restored COMMAND FOLDER WORD..: a restore writes this command, and by it a server in its folder gets what is archived.
restored() {
    local found command=$1 to=$2
    shift 2
    "$top/bin/pgbackrest" --stanza=demo "$@" restore >output 2>errors || complain "restore by $* ended with $?: $(cat output errors)"
    found=$(sed -n "s/^restore_command = '\(.*\)'\$/\1/p" "$to/postgresql.auto.conf")
    [ -z "$command" ] || [ "$found" = "$command" ] || complain "restore by $* wrote '$found' and not '$command'"
    found=${found//%f/$name}
    (cd "$to" && PATH=$top/bin:$PATH sh -c "${found//%p/pg_wal/RECOVERYXLOG}") >output 2>errors ||
        complain "'$found' ended with $?: $(cat output)"
    cmp -s kept "$to/pg_wal/RECOVERYXLOG" || complain "'$found' got other bytes, or none"
}
fetch='--stanza=demo archive-get %f "%p"'
sed "s|^pg1-path=.*|pg1-path=$room/first|" conf >conf-first
restored "pgbackrest --config=$room/conf-first $fetch" first --config=conf-first
restored "pgbackrest --config=$room/conf --pg1-path=$room/second --repo1-path=$room/repo $fetch" \
    second --config=conf --pg1-path=second --repo1-path=repo
restored "pgbackrest --config=$room/conf --pg1-path=$room/third $fetch" third --config="$room/conf" --pg1-path="$room/third"
restored '' fourth --no-config --pg1-path=fourth --repo1-path=repo

# A restore writes no file that has another name in another folder, as a copy by hard links has.
empty=$(cd first && find base -type f -empty | head -n 1)
printf 'more' >"first/$empty"
cp -al first links
(cd links && find . -type f -exec sha1sum {} +) >links.sums
"$top/bin/pgbackrest" --stanza=demo --config=conf-first --delta restore >output 2>errors || complain "a restore beside a copy ended with $?: $(cat output)"
[ ! -s "first/$empty" ] || complain 'a file isn'\''t restored'
(cd links && sha1sum --quiet --check ../links.sums) || complain 'a restore wrote into a copy by hard links'

# A name that isn't UTF-8 is passed over, wherever it is in the repository.
for place in "repo/$log" repo/archive/demo/15-1 repo/archive/demo repo/backup/demo; do touch "$place/"$'\377'; done
make_segments 18 1
want 0 '' archive-push "$(segment 18)"
rm "$(segment 18)"
want 0 '' "${get[@]}"
cmp -s kept pg/pg_wal/RECOVERYXLOG || complain 'beside a strange name other bytes are served'
rm -f pg/pg_wal/RECOVERYXLOG
ends_well info
ends_well --type=full backup
find repo -name $'\377' -delete

# Without a PATH, and by a bare name, the program still starts its workers and what runs in the background.
whole=("${ours[@]}")
ours=(env -i bash -c 'exec -a pgbackrest "$0" "$@"' "${ours[@]}")
ends_well --process-max=2 --type=full backup
make_segments 19 1
touch "pg/pg_wal/archive_status/$(basename "$(segment 19)").ready"
ends_well --archive-async --spool-path="$room/spool" archive-push "$(segment 19)"
[ -e "repo/$(stored_name 19)" ] || complain 'a push in the background without PATH stored nothing'
ours=("${whole[@]}")
rm "$(segment 19)" pg/pg_wal/archive_status/*

# owned FOLDER WORD..: as root nothing is written for another user, who couldn't read it.
owned() {
    local of=$1
    shift
    chown 65534 "$of"
    refuse 14 "ERROR: [014]: user root is not the owner of '$room/$of'
" "$@"
    chown 0 "$of"
}
if [ "$(id -u)" = 0 ]; then
    make_segments 20 1
    for words in stanza-create "archive-push $(segment 20)" backup expire '--delta restore'; do
        # shellcheck disable=SC2086
        owned repo $words
    done
    # The top of a file system may be root's while the stanza's folders aren't.
    owned repo/archive/demo archive-push "$(segment 20)"
    owned repo/backup/demo --type=full backup
    # (no log that the folder's user couldn't continue)
    owned pg --log-path="$room/log" --log-level-file=info "${get[@]}"
    mkdir theirs
    chown 65534 theirs
    ends_well --log-path="$room/theirs/log" --log-level-file=info info
    [ ! -e log ] && [ ! -e theirs/log ] || complain 'root left a log for another user'
    owned pg --delta restore
    owned pg --repo1-path="$room/fresh" stanza-create
    [ ! -e fresh ] || complain "a repository was made for another user's cluster"
    chown 65534 repo pg
    ends_well info
    ends_well verify
    chown 0 repo pg
    want 0 '' archive-push "$(segment 20)"
fi
exit "$wrong"
