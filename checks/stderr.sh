#!/usr/bin/env bash
# What the program writes to standard error: nothing unless `log-level-stderr` asks for it; then the line of the error, what failed with
# its path and the system's reason, and the advice, and of a backup and a restore how many bytes were written.
. "$(dirname "$0")/common"

data=$room/pg
repository=$room/repo
program() {
    "$top/bin/pgbackrest" --stanza=demo --pg1-path="$data" --repo1-path="$repository" "$@"
}

# fails STATUS OUTPUT REASON WORD..: the program ends so, and standard error has this line, this reason and an advice.
fails() {
    local status=0 wanted=$1 line=$2 reason=$3
    shift 3
    program "$@" >output 2>errors || status=$?
    [ "$status" = "$wanted" ] || complain "$* ended with $status and not $wanted"
    [ "$(cat output)" = "$line" ] || complain "$* wrote '$(cat output)' and not '$line'"
    [ "$(head -n 2 errors)" = "$line"$'\n'"$reason" ] || complain "$* told '$(cat errors)' and not '$reason'"
    [ "$(tail -n +3 errors | cut -c 1-6)" = 'HINT: ' ] || complain "$* has no advice, or more: $(cat errors)"
}

lock=(--lock-path="$room/lock")
want 0 '' "${lock[@]}" --no-online stanza-create

# A path that can't be: a file is in it.
printf 'a file\n' >file
refused=("${lock[@]}" --no-online stanza-create)
repository=$room/file/repo
want 80 'ERROR: [080]: repository failed
' "${refused[@]}"
want 80 'ERROR: [080]: repository failed
' --log-level-stderr=off "${refused[@]}"
fails 80 'ERROR: [080]: repository failed' "repository: opening of '$room/file/repo': File exists (os error 17)" \
    --log-level-stderr=error "${refused[@]}"
repository=$room/repo
fails 83 'ERROR: [083]: server connection failed' \
    "server connection: opening of '$room/none/.s.PGSQL.5432': No such file or directory (os error 2)" \
    --log-level-stderr=warn --pg1-socket-path="$room/none" "${lock[@]}" stanza-create
fails 85 'ERROR: [085]: lock failed' "lock: locking of '$room/file/demo-archive.lock': File exists (os error 17)" \
    --log-level-stderr=detail --lock-path="$room/file" archive-push pg_wal/000000010000000000000010
# The configuration asks for it too.
printf '[demo]\nlog-level-stderr=error\n' >configuration
repository=$room/file/repo
fails 80 'ERROR: [080]: repository failed' "repository: opening of '$room/file/repo': File exists (os error 17)" \
    --config="$room/configuration" "${refused[@]}"
want 6 "ERROR: [006]: option 'log-level-stderr' has no valid value
" --log-level-stderr=loud "${refused[@]}"

# tells_total WORD..: the command succeeds, reports how many bytes there are, which are `listed`, and at its end how many were written.
tells_total() {
    program "$@" >output 2>errors || complain "$* ended with $?: $(cat output)"
    grep -q -x 'INFO: [0-9]* bytes written in [0-9]* s, [0-9]* MiB/s' errors || complain "$* told '$(cat errors)'"
    listed=$(sed -n 's/^INFO: \([0-9]*\) bytes listed, [0-9]* MiB$/\1/p' errors)
}

repository=$room/repo
tells_total --log-level-stderr=info "${lock[@]}" --no-online --type=full backup
# A backup that takes ten seconds and more reports its progress before.
told=$(tail -n 1 errors | sed 's/INFO: \([0-9]*\) .*/\1/')
stored=$(find repo/backup/demo/*F -type f -exec cat {} + | wc -c)
[ "$told" -ge $((stored / 2)) ] || complain "the backup told $told bytes, and stored $stored"
there=$(find pg -type f -exec cat {} + | wc -c)
[ -n "$listed" ] && [ "$listed" -ge "$there" ] || complain "the backup told a total of '$listed' bytes, and the cluster has $there"
data=$room/new
tells_total --log-level-stderr=info --type=none restore
# What a restore is to write is told before it writes.
there=$(find new -type f -exec cat {} + | wc -c)
[ "$listed" = "$there" ] || complain "the restore told a total of '$listed' bytes, and $there are there"
[ "$(head -n 1 errors)" = "INFO: $listed bytes listed, $((listed / 1048576)) MiB" ] || complain "the restore doesn't tell its total first: $(cat errors)"
exit "$wrong"
