#!/usr/bin/env bash
# rehearse of three sizes on real folders: what it reports and what it leaves, and the two refusals that come first. These change nothing.
. "$(dirname "$0")/room"

# rehearse FOLDER WORD..: a rehearsal in a room of its own.
rehearse() {
    local folder=$room/$1
    shift
    mkdir -p "$folder"
    "$top/bin/pgbackrest" --stanza=demo --pg1-path="$folder/pg" --repo1-path="$folder/repo" --lock-path="$folder/lock" "$@" rehearse >"$folder/told" 2>"$folder/errors"
}

# told FOLDER WORD..: a rehearsal that succeeds and writes exactly its standard input.
told() {
    local folder=$1
    cat >wanted
    rehearse "$@" || complain "$* ended with $?"
    cmp -s wanted "$folder/told" || complain "$* wrote '$(cat "$folder/told")' and not '$(cat wanted)'"
    [ ! -s "$folder/errors" ] || complain "$* wrote to standard error: $(cat "$folder/errors")"
}

# The files of a folder, each after its sum.
list() {
    (cd "$1" && find . -type f -exec sha1sum {} + | LC_ALL=C sort)
}

# refused STATUS LINE FOLDER: a rehearsal there is refused so, and changes nothing.
refused() {
    local status=0
    list "$3" | grep -v ' \./\(told\|errors\|lock/\)' >wanted
    rehearse "$3" --number=1 || status=$?
    [ "$status" = "$1" ] || complain "in $3 it ended with $status and not $1"
    printf '%s\n' "$2" | cmp -s - "$3/told" || complain "in $3 it wrote '$(cat "$3/told")'"
    list "$3" | grep -v ' \./\(told\|errors\|lock/\)' | cmp -s - wanted || complain "in $3 a refused rehearsal changed something"
}

told one --number=1 <<'END'
files 102
segments 2
full 102 410115
incr 11 47114
full 102 410125
expired 2
kept 2
restored 102 410125
findings 0
END
told two --number=2 <<'END'
files 202
segments 4
full 202 814083
incr 21 84500
full 202 814103
expired 2
kept 4
restored 202 814103
findings 0
END

# A larger one, by more workers: its sizes are those of what lies there in the end.
rehearse larger --number=8 --process-max=4 || complain "the larger one ended with $?"
files=$(find larger/pg -type f | wc -l)
bytes=$(find larger/pg -type f -printf '%s\n' | awk '{ sum += $1 } END { print sum }')
[ "$files" = 802 ] || complain "the larger one left $files files"
[ "$(sed -n 's/^restored //p' larger/told)" = "$files $bytes" ] || complain "the larger one restored other than $files $bytes"
[ "$(grep -E '^(files|segments|expired|kept|findings) ' larger/told | tr '\n' ' ')" = 'files 802 segments 16 expired 2 kept 16 findings 0 ' ] ||
    complain "the larger one wrote '$(cat larger/told)'"
[ "$(find larger/repo/backup/demo -mindepth 1 -maxdepth 1 -type d | wc -l)" = 1 ] || complain 'more than one backup is left'

# Another rehearsal there finds the stanza, and then the folder.
refused 72 "ERROR: [072]: stanza 'demo' exists" one
rm -rf one/repo
refused 62 "ERROR: [062]: folder is not empty: 'PG_VERSION'" one

exit "$wrong"
