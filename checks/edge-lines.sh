#!/usr/bin/env bash
# What a person sees besides standard output: the line of a refusal and the advice of docs/STATUS.md on standard error, the paths that
# were looked at, the lines with their times in a file, and the help wherever its word is.
. "$(dirname "$0")/common"
data=(--pg1-path="$room/pg")
repo=(--repo1-path="$room/repo")
lock=(--lock-path="$room/lock")
all=("${data[@]}" "${repo[@]}" "${lock[@]}")

program() {
    "$top/bin/pgbackrest" --stanza=demo "$@"
}

letters() {
    tr 'A-Z' 'a-z' | tr -cd 'a-z'
}

# What docs/STATUS.md advises for a status.
advice() {
    awk -F ' [|] ' -v status="| $1" '$1 == status { sub(/ [|]$/, "", $NF); print $NF; exit }' "$top/docs/STATUS.md"
}

# tells STATUS WORD..: the program is refused so. Its line is on both outputs, on standard error with the advice after it.
tells() {
    local status=0 wanted=$1
    shift
    program --log-level-stderr=error "$@" >output 2>errors || status=$?
    [ "$status" = "$wanted" ] || complain "$* ended with $status and not $wanted"
    [ "$(grep '^ERROR: ' errors)" = "$(tail -n 1 output)" ] && [ -s output ] || complain "$* wrote '$(cat output)', and to standard error '$(cat errors)'"
    [ "$(sed -n 's/^HINT: //p' errors | letters)" = "$(advice "$wanted" | letters)" ] ||
        complain "$* has another hint than the advice of $wanted: $(grep '^HINT: ' errors || printf none)"
    # Without being asked it writes nothing there, unless it couldn't read whether it is asked.
    program "$@" >output 2>errors || true
    [ ! -s errors ] || [ "$wanted" = 86 ] || complain "$* wrote to standard error: $(cat errors)"
}

# names TEXT: the last call's standard error has this.
names() {
    program --log-level-stderr=error "${@:2}" >output 2>errors || true
    grep -q -F -e "$1" errors || complain "${*:2} doesn't say '$1': $(cat errors)"
}

make_segments 16 2
want 0 '' "${all[@]}" --no-online stanza-create
want 0 '' "${all[@]}" archive-push "$(segment 16)"
printf 'a file\n' >file
: >empty

tells 4 --no-config "${all[@]}" --other backup
tells 7 --no-config "${repo[@]}" --no-online stanza-create
tells 10 --config="$room/none" "${all[@]}" stanza-create
tells 21 --no-config "${data[@]}" --repo1-path="$room/none" "${lock[@]}" archive-push "$(segment 16)"
tells 30 --no-config "${all[@]}" archive-push pg_wal/none
tells 60 --no-config --pg1-path="$room/new" "${repo[@]}" restore
tells 80 --no-config "${data[@]}" --repo1-path="$room/file/repo" "${lock[@]}" --no-online stanza-create
tells 85 --no-config "${data[@]}" "${repo[@]}" --lock-path="$room/file" archive-push "$(segment 16)"
tells 86 --config="$room" "${all[@]}" archive-push "$(segment 16)"
names "$room/file" --no-config "${data[@]}" --repo1-path="$room/file/repo" "${lock[@]}" --no-online stanza-create
names "$room/none" --config="$room/none" "${all[@]}" stanza-create
names "$room/empty" --config="$room/empty" "${repo[@]}" --no-online stanza-create
names "$room'" --config="$room" "${all[@]}" archive-push "$(segment 16)"
names 'not a plain file' --config="$room" "${all[@]}" archive-push "$(segment 16)"

# A warning is on standard error from its own level on.
warning="WARN: $(basename "$(segment 16)") is already in the archive with the same checksum"
for level in warn info error off; do
    program "${all[@]}" --log-level-stderr="$level" archive-push "$(segment 16)" >output 2>errors || complain "a push ended with $?"
    [ "$(cat output)" = "$warning" ] || complain "a push wrote '$(cat output)'"
    case $level in
    warn | info) grep -q -x -F "$warning" errors ;;
    *) [ ! -s errors ] ;;
    esac || complain "with $level a push wrote '$(cat errors)' to standard error"
done

# The lines in a file, each with its time.
# logged COMMAND COUNT LINE: its file has the line so often.
logged() {
    local time='[0-9]{4}-[0-9]{2}-[0-9]{2} [0-9]{2}:[0-9]{2}:[0-9]{2}' count
    count=$(grep -E "^$time" "log/demo-$1.log" 2>/dev/null | grep -c -F -e "$3") || true
    [ "$count" = "$2" ] || complain "demo-$1.log has '$3' $count times and not $2: $(cat "log/demo-$1.log" 2>&1)"
}
to_file=(--log-path="$room/log" --log-level-file=info)
mkdir log
for count in 1 2; do
    program "${all[@]}" "${to_file[@]}" archive-push "$(segment 16)" >output 2>&1 || complain "a push ended with $?: $(cat output)"
    logged archive-push "$count" "$warning"
    program "${data[@]}" --repo1-path="$room/file/repo" "${lock[@]}" "${to_file[@]}" --no-online stanza-create >output 2>&1 || true
    logged stanza-create "$count" 'ERROR: [080]: repository failed'
done
program "${all[@]}" --log-path="$room/log" --log-level-file=error archive-push "$(segment 16)" >output 2>&1 || complain "a push ended with $?"
logged archive-push 2 "$warning"
# A log that can't be written changes nothing.
program "${all[@]}" --log-path="$room/file" --log-level-file=info archive-push "$(segment 17)" >output 2>&1 ||
    complain "a push whose log can't be written ended with $?: $(cat output)"

# Nor does a pipe that nobody reads in its place.
mkfifo log/demo-info.log
timeout 20 "$top/bin/pgbackrest" --stanza=demo "${repo[@]}" "${to_file[@]}" info >output 2>&1 ||
    complain "info whose log is a pipe ended with $?: $(cat output)"

# What a push starts in the background ends with 1 in place of more, and with the status itself where it is called by hand.
status=0
program --no-config "${all[@]}" --spool-path="$room/spool" --other archive-push:async </dev/null >/dev/null 2>&1 || status=$?
[ "$status" = 1 ] || complain "a push in the background ended with $status and not 1"
tells 4 --no-config "${all[@]}" --spool-path="$room/spool" --other archive-push:async

# No text is in place of a file that a server hands over or asks for.
for word in --help -h --version; do
    tells 4 --no-config "${all[@]}" "$word" archive-push "$(segment 17)"
    tells 4 --no-config "${data[@]}" "${repo[@]}" archive-get "$(basename "$(segment 16)")" pg_wal/RECOVERYXLOG "$word"
done
tells 3 help archive-push "$(segment 17)"

# The help and the version, wherever their words are.
"$top/bin/pgbackrest" --version >version
"$top/bin/pgbackrest" --help backup >help
for words in '--help backup' 'backup --help' '--stanza=demo backup --help' 'backup --help --stanza=demo' '--help --no-online backup'; do
    # shellcheck disable=SC2086
    "$top/bin/pgbackrest" $words >output 2>&1 || complain "$words ended with $?"
    cmp -s help output || complain "$words writes something else than the help of backup"
done
for words in 'archive-push --help' 'help archive-push' '-h archive-push'; do
    # shellcheck disable=SC2086
    "$top/bin/pgbackrest" $words 2>&1 | grep '^archive-push PATH: ' >/dev/null || complain "$words doesn't write the help of archive-push"
done
for words in '--stanza=demo --version' 'backup --version' '--version --stanza=demo backup'; do
    # shellcheck disable=SC2086
    "$top/bin/pgbackrest" $words >output 2>&1 || complain "$words ended with $?"
    cmp -s version output || complain "$words writes something else than the version"
done
exit "$wrong"
