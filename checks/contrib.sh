#!/usr/bin/env bash
# What contrib has, with a server: its configuration, its lines of cron and its units, its check in each of its states, and the report
# with the original's keys.
if ! command -v jq >/dev/null && [ "$(id -u)" = 0 ]; then
    DEBIAN_FRONTEND=noninteractive timeout 300 apt-get install -y --no-install-recommends jq >/dev/null 2>&1 || true
fi
if ! command -v jq >/dev/null; then
    printf 'jq is not here: skipped\n'
    exit 77
fi
. "$(dirname "$0")/typed"
here <"$top/contrib/pgbackrest.conf" >conf
here <"$top/contrib/check" >bin/pgbackrest-check
cat >bin/su <<'END'
#!/bin/sh
while [ "$1" != -c ]; do shift; done
exec /bin/sh -c "$2"
END
chmod 755 bin/*

# (to cron a percent sign is the end of the line)
grep % "$top/contrib/crontab" && complain 'a percent sign in contrib/crontab'
# cron NUMBER STATUS: a line of cron, as cron has it run.
cron() {
    local status=0 line
    line=$(grep -v '^#' "$top/contrib/crontab" | sed -n "$1p" | cut -d' ' -f6- | here)
    as_user sh -c "$line" >output 2>errors || status=$?
    [ "$status" = "$2" ] || complain "'$line' ended with $status and not $2: $(cat output errors)"
}

# mails_nothing WHAT: the last line of cron wrote nothing.
mails_nothing() {
    [ ! -s output ] && [ ! -s errors ] || complain "$1 writes to cron's mail: $(cat output errors)"
}

# looks STATUS PATTERN [OPTION..]: the check ends so, and its one line has this.
looks() {
    local status=0
    as_user "$room/bin/pgbackrest-check" "${@:3}" >output 2>errors || status=$?
    [ "$status" = "$1" ] || complain "check ${*:3} ended with $status and not $1: $(cat output errors)"
    grep -q -e "$2" output || complain "check ${*:3} says: $(cat output errors)"
    [ "$(wc -l <output)" = 1 ] && [ ! -s errors ] || complain "check ${*:3} says more: $(cat output errors)"
}

printf "archive_mode = on\narchive_command = '%s/bin/pgbackrest --stanza=main archive-push %%p'\n" "$room" >>etc/main/postgresql.conf
as_user systemctl start postgresql@16-main
looks 2 'CRITICAL - info: ERROR: \[021\]'
as_user pgbackrest --stanza=main stanza-create
looks 2 'no full backup; no backup'
cron 1 0
mails_nothing 'a full backup'
as_user pgbackrest --stanza=main info | grep 'full backup: .*F$' >/dev/null || complain 'cron made no full backup'
ask 'create table more as select 1 as n' >/dev/null
cron 2 0
mails_nothing 'an incremental backup'
as_user pgbackrest --stanza=main info | grep 'incr backup: .*I$' >/dev/null || complain 'cron made no incremental backup'
cron 3 0
mails_nothing 'a verification'
switch
cron 4 0
mails_nothing 'a check'
looks 0 'OK - full backup 0 h ago; backup 0 h ago; archived 0.* MiB free'
looks 2 'full backup 0 h ago' -f -1
looks 2 'backup 0 h ago' -a -1
looks 2 'MiB free' -m 999999999
looks 2 'no folder' -r "$room/nowhere"
looks 2 'CRITICAL - info: ' -s other

# The server's warnings come before the answer, and before what is wrong.
printf '#!/bin/sh\n%s\n%s\nexec %s/psql "$@"\n' 'echo "WARNING:  database \"postgres\" has a collation version mismatch" >&2' \
    'echo "HINT:  Rebuild all objects in this database" >&2' "$tools" >bin/psql
chmod 755 bin/psql
looks 0 'OK - full backup 0 h ago; backup 0 h ago; archived 0.* MiB free'
printf '#!/bin/sh\n%s\nexec %s/psql -p 1 "$@"\n' 'echo "WARNING:  a collation" >&2' "$tools" >bin/psql
looks 2 'server: psql: error: '
rm bin/psql

# A verification waits for a backup's lock, and a held one ends with cron's line.
(as_user flock "$room/srv/pgbackrest/lock/main-backup.lock" sleep 4) &
sleep 1
status=0
as_user sh -c "$(grep -v '^#' "$top/contrib/crontab" | sed -n 3p | cut -d' ' -f6- | here | sed 's/-w 7200/-w 1/')" >output 2>&1 || status=$?
[ "$status" = 20 ] || complain "a verification beside the lock ended with $status"
wait

# The server's archiver fails: the check says so, the backup fails, and the expiry of its line removes what it had stored.
(as_user flock "$room/srv/pgbackrest/lock/main-archive.lock" sleep 20) &
sleep 1
ask "insert into more values (2); select pg_switch_wal()" >/dev/null
sleep 3
looks 2 'archiving fails at 0'
looks 2 '1 files wait to be archived' -q 0
before=$(ls srv/pgbackrest/repo/backup/main)
cp conf conf.kept
sed -i 's/^\[main\]$/archive-timeout=1\n\n[main]/' conf
as_user pgbackrest --stanza=main backup >output 2>errors && complain 'a backup without its log'
looks 2 '1 unlisted backup folders, run expire'
# (one without files isn't counted: an expiry leaves it)
as_user mkdir "$room/srv/pgbackrest/repo/backup/main/20200101-000000F"
looks 2 '1 unlisted backup folders, run expire'
as_user rmdir "$room/srv/pgbackrest/repo/backup/main/20200101-000000F"
# (beside a backup nothing is said of folders)
(as_user flock "$room/srv/pgbackrest/lock/main-backup.lock" sleep 3) &
holder=$!
sleep 1
looks 2 'archiving fails at 0'
grep unlisted output && complain 'the check takes a running backup for a failed one'
wait "$holder"
cron 2 42
grep -q 'ERROR: \[042\]' errors || complain "cron's mail of a failed backup: $(cat errors)"
[ "$(ls srv/pgbackrest/repo/backup/main)" = "$before" ] || complain "the folders of failed backups stay: $(ls srv/pgbackrest/repo/backup/main)"
cp conf.kept conf
wait
switch
looks 0 'PGBACKREST OK'
# The server says that it archived what the repository doesn't have.
ask "alter system set archive_command = 'true'"
ask 'select pg_reload_conf()' >/dev/null
sleep 1
switch
looks 2 "is archived, and the repository doesn't have it"

as_user pgbackrest --stanza=main --output=json info | tail -n 1 | jq -c -f "$top/contrib/info.jq" >report.json || complain 'no report'
wanted='{"name":"main","code":0,"key":1,"version":"15","full":"full","incr":"incr","prior":true,"reference":[null,true],"numbers":true}'
found=$(jq -c '.[0] | {name, code: .status.code, key: .repo[0].key, version: .db[0].version, full: .backup[0].type, incr: .backup[1].type,
    prior: (.backup[1].prior == .backup[0].label), reference: [.backup[0].reference, .backup[1].reference == [.backup[0].label]],
    numbers: ([.backup[] | .timestamp.start, .timestamp.stop, .info.size, .info.delta, .info.repository.size, .database.id] | all(. > 0))}' report.json)
[ "$found" = "$wanted" ] || complain "the report with the original's keys: $(cat report.json)"
for key in archive.start archive.stop backrest.format database.id; do
    jq -e ".[0].backup[0].$key" report.json >/dev/null || complain "no key $key: $(cat report.json)"
done

if command -v systemd-analyze >/dev/null; then
    mkdir units
    for unit in "$top"/contrib/*.service "$top"/contrib/*.timer; do here <"$unit" >"units/$(basename "$unit")"; done
    for unit in pgbackrest-backup@full.timer pgbackrest-backup@incr.timer pgbackrest-backup@full.service pgbackrest-verify.timer pgbackrest-verify.service; do
        # (an instance is read from its template)
        (cd units && systemd-analyze verify --man=no "./$unit") >output 2>&1 || complain "$unit: $(cat output)"
        grep -v -e 'not found' output | grep . && complain "$unit: $(cat output)"
    done
fi
exit "$wrong"
