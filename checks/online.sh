#!/usr/bin/env bash
# stanza-create with a server of PostgreSQL 15 that it asks: a server of the data folder's system, and what is refused.
. "$(dirname "$0")/server"

configure
start_server

# ask_online STATUS OUTPUT REPOSITORY WORD..: stanza-create there, which asks the server.
ask_online() {
    local status=$1 output=$2 repository=$3
    shift 3
    want "$status" "$output" --online --pg1-socket-path="$room/socket" --repo1-path="$room/$repository" "$@" stanza-create
}

# refuse STATUS OUTPUT WORD..: the same in a new repository, where nothing is written.
refuse() {
    local status=$1 output=$2
    shift 2
    ask_online "$status" "$output" repo/refused "$@"
    [ -z "$(find repo/refused -type f 2>/dev/null)" ] || complain "files were written at status $status"
}

told() {
    LC_ALL=C "$tools/pg_controldata" "$1" | sed -n 's/^Database system identifier: *//p'
}

ask_online 0 '' repo
[ "$(find repo/archive repo/backup -type f | wc -l)" = 4 ] || complain 'the stanza is not made'
ask_online 0 '' repo

# Another data folder than the server's.
mkdir -p other/global
cp pg/PG_VERSION other
cp pg/global/pg_control other/global
printf '\377' | dd of=other/global/pg_control bs=1 seek=1 conv=notrunc status=none
chmod -R a+rX other
# (the socket is that of the user whose the data folder is)
chown -R --reference=pg other
refuse 47 "ERROR: [047]: control file has system $(told other), server has system $(told pg)
" --pg1-path="$room/other"

refuse 48 'ERROR: [048]: server: [3D000] database "none" does not exist
' --pg1-database=none
refuse 48 'ERROR: [048]: server: [28000] role "none" does not exist
' --pg1-user=none
refuse 83 'ERROR: [083]: server connection failed
' --pg1-port=5433

# The system's own user by peer, and one who needs a password.
own=$(id -un 65534)
if [ "$(id -u)" != 0 ]; then own=$(id -un); fi
ask "create role \"$own\" login" >/dev/null
ask "create role asked login password 'secret'" >/dev/null
{
    printf 'local all "%s" peer\nlocal all asked scram-sha-256\n' "$own"
    cat pg/pg_hba.conf
} >hba
cat hba >pg/pg_hba.conf
ask 'select pg_reload_conf()' >/dev/null
sleep 1
ask_online 0 '' repo/peer --pg1-user="$own"
refuse 49 'ERROR: [049]: authentication 10 is not supported
' --pg1-user=asked

stop_server fast
refuse 83 'ERROR: [083]: server connection failed
'
exit "$wrong"
