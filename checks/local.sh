#!/usr/bin/env bash
# A worker: it answers jobs over standard input and output, and ends with 1 on a fault.
. "$(dirname "$0")/room"

# number SIZE VALUE: the number in this many bytes, the highest first.
number() {
    local place
    for ((place = $1 - 1; place >= 0; place--)); do
        printf "\\x$(printf %02x $(($2 >> (8 * place) & 255)))"
    done
}

# frame TYPE FILE: a frame with the file as its body.
frame() {
    printf %s "$1"
    number 4 "$(stat -c %s "$2")"
    cat "$2"
}

text() {
    number 2 "${#1}"
    printf %s "$1"
}

# item ROOT PATH AT SIZE
item() {
    printf %s "$1"
    text "$2"
    number 8 "$3"
    number 8 "$4"
}

# job KIND COUNT ITEMS
job() {
    { printf %s "$1" && number 4 "$2" && cat "$3"; } >body
    frame J body
}

# part FILE and end FILE: the frames of a file's bytes.
part() {
    frame P "$1"
}

end() {
    { number 8 "$(stat -c %s "$1")" && sha1sum "$1" | cut -c1-40 | sed 's/../\\x&/g' | xargs -0 printf %b | head -c 20; } >told
    frame E told
}

# serves STATUS: the worker takes `input`, ends so, and writes what is in `wanted`.
serves() {
    local status=0
    "$top/bin/pgbackrest" local <input >output 2>errors || status=$?
    [ "$status" = "$1" ] || complain "$2: status $status and not $1"
    cmp -s wanted output || complain "$2: other bytes were written"
    [ ! -s errors ] || complain "$2: standard error was written to: $(cat errors)"
}

mkdir -p pg/base repo
head -c 70000 /dev/urandom >pg/base/1
printf abc >repo/kept
: >pg/empty
{ text "$room/pg" && text "$room/repo"; } >roots
frame S roots >setup

# The parts of the longer file, cut as a worker cuts them.
split -b 32768 pg/base/1 cut.

{ item T base/1 0 70000 && item T none 0 5 && item R kept 1 9 && item T empty 0 5; } >items
{ cat setup && job R 4 items; } >input
printf bc >tail
{ part cut.aa && part cut.ab && part cut.ac && end pg/base/1 && printf 'V\0\0\0\0' && part tail && end tail && end pg/empty; } >wanted
serves 0 'a read job'

item T base/1 0 70000 >items
{ cat setup && job D 1 items && job D 1 items; } >input
{ end pg/base/1 && end pg/base/1; } >wanted
serves 0 'two digest jobs'

# No file has bytes so far on, nor at a place of which the system's calls have no number.
for place in 70000 9223372036854775807 -9223372036854775808 -5; do
    item T base/1 "$place" 5 >items
    { cat setup && job R 1 items; } >input
    end pg/empty >wanted
    serves 0 "a reading from $place on"
done

item R none 0 5 >items
{ cat setup && job D 1 items; } >input
printf 'U\0\0\0\0' >wanted
serves 0 'an absent file of the repository'

: >wanted
: >input
serves 0 'no input'
head -c 9 setup >input
serves 1 'an input that ends inside a frame'
{ cat setup && cat setup; } >input
serves 1 'a second setup'

{ text "$room/absent" && text "$room/repo"; } >roots
item T base/1 0 1 >items
{ frame S roots && job D 1 items; } >input
printf 'U\0\0\0\0' >wanted
serves 0 'a folder that is absent'

exit "$wrong"
