#!/usr/bin/env bash
# backup of each kind, of a stopped server's folder that changes between: what didn't change isn't stored again, `--delta` finds by its
# digest what times hide, info lists the chain, each backup is restored as its folder was, and so is each that an expiry keeps. All of it is
# tried without bundles and with them.
. "$(dirname "$0")/common"

# (restore, info and verify take no lock, and refuse its option)
program() {
    local word lock=(--lock-path="$room/lock")
    for word in "$@"; do
        case $word in info | restore | verify) lock=() ;; esac
    done
    "$top/bin/pgbackrest" --stanza=demo --repo1-path="$room/repo" "${lock[@]}" "$@"
}

# What a folder holds: each file after its sum and after its time, and each folder.
list() {
    (cd "$1" && { find . -type f -exec sha1sum {} + -o -type d -print && find . -type f -exec stat -c '%Y %n' {} +; } | LC_ALL=C sort)
}

# The files that a backup has of its own: each at its name, or in one of its bundles.
own() {
    local folder=repo/backup/demo/$1
    {
        (cd "$folder/pg_data" && find . -type f)
        sed -n '/"reference":/d; s/^pg_data\/\(.*\)={"bni":.*}$/.\/\1/p' "$folder/backup.manifest"
    } | LC_ALL=C sort
}

# back_up KIND [OPTION..]: a backup, whose label ends in `label`, and of what the folder was then. (What a server makes anew isn't there.)
back_up() {
    local kind=$1
    shift
    sleep 1
    program --pg1-path="$room/pg" --no-online --no-expire-auto "--type=$kind" "${options[@]}" "$@" backup >output 2>errors || complain "$kind: the backup ended with $?"
    label=$(sed -n 's/^INFO: new backup label = //p' output)
    list pg >"was-$label"
}

# change PATH: a file of the data folder becomes another, of another size and time.
change() {
    printf 'changed at %s\n' "$(date +%s%N)" >>"pg/$1"
}

# restored LABEL..: each is restored as its folder was.
restored() {
    local each
    for each in "$@"; do
        rm -rf new
        program --pg1-path="$room/new" --type=none --set="$each" restore >/dev/null 2>errors || complain "the restore of $each ended with $?"
        list new | cmp -s - "was-$each" || complain "$each is restored as another: $(list new | diff - "was-$each" | head -n 3)"
    done
}

# has LABEL FILE..: exactly these files, and the manifest's own, are stored in the folder of the backup.
has() {
    local of=$1
    shift
    own "$of" | cmp -s - <(printf './%s\n' "$@" | LC_ALL=C sort) || complain "$of has other files of its own than $*: $(own "$of" | head -n 5 | tr '\n' ' ')"
}

# chains OPTION..: all of it, with these options of each backup.
chains() {
    options=("$@")
    rm -rf repo
    rm -rf pg/pg_subtrans/* pg/pg_notify/* pg/pg_wal/0*
    touch -d '2 days ago' $(find pg -type f)
    want 0 '' --pg1-path="$room/pg" --no-online stanza-create
    back_up incr
    full=$label
    grep -q '^WARN: ' output || complain 'nobody is told that the first backup is a full one'
    [ "${full: -1}" = F ] || complain "the first backup is $full"
    change postgresql.auto.conf
    back_up incr
    first=$label
    [[ $first == "${full}_"*I ]] || complain "an incremental backup of $full is $first"
    has "$first" global/pg_control postgresql.auto.conf
    change pg_hba.conf
    back_up incr
    second=$label
    has "$second" global/pg_control pg_hba.conf
    back_up diff
    diff=$label
    [[ $diff == "${full}_"*D ]] || complain "a differential backup of $full is $diff"
    has "$diff" global/pg_control pg_hba.conf postgresql.auto.conf
    # The same size and time, and other bytes: only digests show it.
    old=$(stat -c %y pg/pg_ident.conf)
    sed -i '1y/#-/-#/' pg/pg_ident.conf
    touch -d "$old" pg/pg_ident.conf
    touch pg/base/1/PG_VERSION
    back_up incr --delta
    third=$label
    [[ $third == "${full}_"*I ]] || complain "the last incremental backup is $third"
    has "$third" global/pg_control pg_ident.conf
    program info >output
    for each in "$full" "$first" "$second" "$diff" "$third"; do grep -q " backup: $each\$" output || complain "info doesn't list $each"; done
    restored "$full" "$first" "$second" "$diff" "$third"

    # A second chain, and what retention keeps of both.
    back_up full
    again=$label
    change postgresql.auto.conf
    back_up diff
    early=$label
    change pg_hba.conf
    back_up diff
    late=$label
    change pg_ident.conf
    back_up incr
    last=$label
    want 0 "INFO: expire backup $diff
INFO: expire backup $third
INFO: expire backup $early
" --repo1-retention-diff=1 expire
    restored "$full" "$first" "$second" "$again" "$late" "$last"
    program --repo1-retention-full=1 expire >output || complain "an expiry of a chain ended with $?"
    ls -d repo/backup/demo/*/ | cut -d/ -f4 | cmp -s - <(printf '%s\n' "$again" "$late" "$last" | LC_ALL=C sort) || complain "the folders that are left are $(ls repo/backup/demo)"
    restored "$again" "$late" "$last"

    # Restored files have their times, so the next incremental backup stores the control file alone.
    rm -rf pg
    mv new pg
    back_up incr
    has "$label" global/pg_control
    restored "$label"
    want 0 '' verify
}

chains
chains --repo1-bundle
exit "$wrong"
