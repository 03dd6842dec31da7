#!/usr/bin/env bash
# stanza-create on a cluster that PostgreSQL 15's initdb made: what it writes, and what it refuses.
. "$(dirname "$0")/common"

program() {
    "$top/bin/pgbackrest" "$@"
}

# create STATUS OUTPUT REPOSITORY: stanza-create there.
create() {
    want "$1" "$2" --stanza=demo --pg1-path="$room/pg" --repo1-path="$room/$3" --lock-path="$room/lock" --no-online stanza-create
}

# refuse STATUS OUTPUT: stanza-create in a new repository, which writes nothing.
refuse() {
    create "$1" "$2" refused
    [ -z "$(find refused -type f 2>/dev/null)" ] || complain "files were written at status $1"
}

# info MEMBERS JSON LINES: the text of an info file, with its checksum over the JSON object of all sections.
info() {
    local sum
    sum=$(printf '%s' "$1" | sha1sum | cut -d' ' -f1)
    printf '[backrest]\nbackrest-format=5\n\n%s\n\n[backrest]\nbackrest-checksum="%s"\n' "$2" "$sum"
}

told() {
    LC_ALL=C "$tools/pg_controldata" pg | sed -n "s/^$1: *//p"
}

create 0 '' repo
files=$(find repo -type f 2>/dev/null | LC_ALL=C sort) || true
[ "$files" = 'repo/archive/demo/archive.info
repo/archive/demo/archive.info.copy
repo/backup/demo/backup.info
repo/backup/demo/backup.info.copy
repo/settled.note' ] || complain "the repository has '$files'"

system=$(told 'Database system identifier')
control=$(told 'pg_control version number')
catalog=$(told 'Catalog version number')
archive="\"db-system-id\":$system,\"db-version\":\"15\""
backup="\"db-catalog-version\":$catalog,\"db-control-version\":$control"
identity="\"db-id\":$system,\"db-version\":\"15\""
info "{\"backrest\":{\"backrest-format\":5},\"db\":{\"db-id\":1,$archive},\"db:history\":{\"1\":{$identity}}}" \
    "[db]
db-id=1
db-system-id=$system
db-version=\"15\"

[db:history]
1={$identity}" >archive.wanted
info "{\"backrest\":{\"backrest-format\":5},\"db\":{$backup,\"db-id\":1,$archive},\"db:history\":{\"1\":{$backup,$archive}}}" \
    "[db]
db-catalog-version=$catalog
db-control-version=$control
db-id=1
db-system-id=$system
db-version=\"15\"

[db:history]
1={$backup,$archive}" >backup.wanted
for kind in archive backup; do
    for name in "$kind.info" "$kind.info.copy"; do
        cmp -s "$kind.wanted" "repo/$kind/demo/$name" || complain "$name isn't what pg_controldata tells"
    done
done
[ -z "$(find repo -type f ! -perm 600 2>/dev/null)" ] || complain 'a file has another mode than 600'
[ -z "$(find repo -type d ! -perm 700 2>/dev/null)" ] || complain 'a folder has another mode than 700'

# Again it is left as it is, and a member that is gone is written anew from the other.
rm repo/archive/demo/archive.info repo/backup/demo/backup.info.copy
for _ in 1 2; do
    create 0 '' repo
    for kind in archive backup; do
        for name in "$kind.info" "$kind.info.copy"; do
            cmp -s "$kind.wanted" "repo/$kind/demo/$name" || complain "$name isn't as it was"
        done
    done
done

# No server is there.
want 83 'ERROR: [083]: server connection failed
' --stanza=demo --pg1-path=pg --repo1-path="$room/refused" --lock-path="$room/lock" --pg1-socket-path="$room" stanza-create
[ -z "$(find refused -type f 2>/dev/null)" ] || complain 'files were written without the server'

mv pg/PG_VERSION version
refuse 28 "ERROR: [028]: 'PG_VERSION' is missing
"
printf 15 >pg/PG_VERSION
refuse 26 'ERROR: [026]: PG_VERSION is not valid
'
printf '14\n' >pg/PG_VERSION
refuse 27 'ERROR: [027]: version 14 is not supported
'
mv version pg/PG_VERSION
cp pg/global/pg_control kept
head -c 15 kept >pg/global/pg_control
refuse 25 'ERROR: [025]: control file has 15 bytes
'
rm pg/global/pg_control
refuse 28 "ERROR: [028]: 'global/pg_control' is missing
"
want 7 "ERROR: [007]: option 'pg1-path' is missing
" --no-config --stanza=demo stanza-create
want 2 'ERROR: [002]: no command found
'
program --help >help
for words in 'help' '-h' 'help me'; do
    read -ra asked <<<"$words"
    program "${asked[@]}" | cmp -s help - || complain "$words shows other help"
done
program --help archive-get >help-get
for words in 'help archive-get' '-h archive-get' 'archive-get --help'; do
    read -ra asked <<<"$words"
    program "${asked[@]}" | cmp -s help-get - || complain "$words shows other help"
done
grep -q '^archive-get NAME PATH: ' help-get || complain 'the help of archive-get lacks its parameters'
grep -q '^  --pg1-path: path; required$' help-get || complain 'the help of archive-get lacks an option'
if grep -q '^  --process-max' help-get; then complain "the help of archive-get has a backup's option"; fi
program version >version
head -n 1 help | cmp -s - version || complain 'the help and the version tell different versions'
for form in stanza-upgrade 'archive-push PATH' 'archive-get NAME PATH'; do
    grep -q "^  $form: " help || complain "the help has no $form"
done
exit "$wrong"
