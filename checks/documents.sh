#!/usr/bin/env bash
# The documents: README has at most 8 KiB and ARCHITECTURE 15,000 bytes; a case of RUNBOOK has at most ten lines to type; each definition
# has a comment; the numbers of TESTING and DEFINITIONS and the rows of PROVED are those that docs/counts makes, and none is above its bound
# in docs/bounds; each crate, option and status has its row; the areas of ARCHITECTURE are the crates of crates.txt, and the silent fields of
# DEFINITIONS those that docs/figures finds; the program's hints are the advice of STATUS; each wrong body fits the sources;
# each link leads to a file and a heading that are there; no sentence has more than 40 words; and none has a word of the list below.
# Sentences of comments in the crates' code, definitions and proofs are read too.
# A cell of a table, an item of a list and a heading end a sentence; what is in code counts as one word.
# documents.sh FILE..: the sentences of these files alone.
set -euo pipefail
cd "$(dirname "$0")/.."
most_words=40
most_bytes=8192

# What a reader of the field would stumble over; GLOSSARY.md has the field's words.
dialect="is well|are well|ends well|ended well|end well|so many|hasn't (a|an|the|its|their|that|this)|haven't (a|an|the|their)"
dialect="$dialect|has not the|just where|just so|just these|just as the|just this|want of memory|who (asks|reads|writes|removed|only|knows)"
dialect="$dialect|comes behind|come behind|behind another|but by|take it away|taken away|is no WAL|is none of these calls|the same of (a|an|the|it)|let go|lets go|is said of it|but for what"

# And what documents don't say either.
document_dialect="tell|tells|telling|told|stands? for|stood for|settles?|settled|settling|loose|tight|drains?|drained|draining|hears?|heard|talks?|strangers"
document_dialect="$document_dialect|a stop (in|of|at|leaves|undoes|may)|stops (leave|may)|stopped (backup|command|push|restore|expiry)|, to last|a person (is|reads)|mends|mended"
document_dialect="$document_dialect|before and behind|a 0 behind|behind (it|them|which)|behind the (rename|text|reading|start|end|listing|backup)|lies behind|in front|anew"
document_dialect="$document_dialect|(reads|of|with|and) (the|its|these) words|own words|the words alone|takes? away|taken back|goes first"

# And what comments don't say either, whatever the identifiers are named: those stand in code, and are left out.
comment_dialect="tell|tells|told|telling|so much|settle|settles|settled|settling|stands? for|stood|loose|tight|beside|to last|the same of"
comment_dialect="$comment_dialect|a stop (leaves|may leave|left)|stops (leave|may leave)|(no|each|every) stop (takes|leaves|removes)"
comment_dialect="$comment_dialect|hears?|heard|goes on|go on|went on|(is|are) wanted|lets? .* go|(takes?|taken|took) .* away"
comment_dialect="$comment_dialect|(one|left|right|stands?) behind|behind (it|them|all|calls|turns|the other|the others|the locks|the stages)|who (neither|waits|uses|leaves)"
comment_dialect="$comment_dialect|(what|whatever) (came|comes) of|seats?|but for|just the|taken? away|misuse|isn't built|where (it|that) is built"

wrong=0
complain() {
    printf 'wrong: %s\n' "$*"
    wrong=1
}

# sentences FILE: a line for each sentence, as LINE<tab>SENTENCE, without code.
sentences() {
    awk '
        function flush(    text, rest, at) {
            text = unit
            unit = ""
            gsub(/`[^`]*`/, "X", text)
            gsub(/\]\([^)]*\)/, "", text)
            gsub(/[*\[]/, "", text)
            while (match(text, /[A-Za-z0-9)"\x27][.?!]["\x27)]*( |$)/)) {
                at = RSTART + RLENGTH
                print from "\t" substr(text, 1, at - 1)
                text = substr(text, at)
            }
            if (text ~ /[A-Za-z0-9]/) print from "\t" text
        }
        function add(text) {
            if (unit == "") from = NR
            unit = unit == "" ? text : unit " " text
        }
        /^```/ { flush(); fenced = !fenced; next }
        fenced { next }
        /^    / { flush(); next }
        /^[ \t]*$/ { flush(); next }
        /^\|[-|: ]*$/ { next }
        /^\|/ {
            flush()
            line = $0
            gsub(/\\\|/, "/", line)
            count = split(line, cells, "|")
            for (i = 2; i < count; i++) { add(cells[i]); flush() }
            next
        }
        /^#/ { flush(); add($0); flush(); next }
        /^ *([-*]|[0-9]+\.) / { flush(); add($0); next }
        { add($0) }
        END { flush() }
    ' "$1"
}

# own_text FILE: without what docs/counts copies into it, which are the first comments of the crates.
own_text() {
    case $1 in
    docs/PROVED.md) sed 's/^\(| `[a-z_0-9]*` |\)[^|]*|/\1 |/' "$1" ;;
    *) cat "$1" ;;
    esac
}

# check_words FILE: its sentences are short, and without dialect.
check_words() {
    local found
    found=$(
        sentences "$1" | awk -F '\t' -v most="$most_words" '
            {
                words = 0
                count = split($2, parts, /[ \t]+/)
                for (i = 1; i <= count; i++) if (parts[i] ~ /[A-Za-z0-9]/) words++
                if (words > most) print $1 ": " words " words: " $2
            }'
        sentences <(own_text "$1") | awk -F '\t' -v dialect="$dialect|$document_dialect" '
            tolower($2) ~ "(^|[^a-z])(" dialect ")([^a-z]|$)" { print $1 ": dialect: " $2 }'
    )
    if [ -n "$found" ]; then
        while IFS= read -r line; do complain "$1:$line"; done <<<"$found"
    fi
}

# check_comments: the sentences of the crates' comments are short, and without dialect.
check_comments() {
    local found
    found=$(find crates/*/src crates/*/specs crates/*/proofs \( -name '*.rt' -o -name '*.antt' \) -print0 | sort -z |
        xargs -0 awk -v most="$most_words" -v dialect="$dialect|$comment_dialect" '
            function judge(sentence,    words, count, parts, i) {
                if (tolower(sentence) ~ pattern) print from ": dialect: " sentence
                count = split(sentence, parts, /[ \t]+/)
                if (count <= most) return
                for (i = 1; i <= count; i++) if (parts[i] ~ /[A-Za-z0-9]/) words++
                if (words > most) print from ": " words " words: " sentence
            }
            function flush(    at) {
                gsub(/`[^`]*`/, "X", unit)
                while (match(unit, /[A-Za-z0-9)"\x27][.?!]["\x27)]*( |$)/)) {
                    at = RSTART + RLENGTH
                    judge(substr(unit, 1, at - 1))
                    unit = substr(unit, at)
                }
                judge(unit)
                unit = ""
            }
            BEGIN { pattern = "(^|[^a-z])(" dialect ")([^a-z]|$)" }
            FNR == 1 { flush() }
            /^ *(\/\/|--)/ {
                sub(/^ *(\/\/[\/!]?|--) ?/, "")
                if (/^ *$/ || /^ *-/) flush()
                if (unit == "") from = FILENAME ":" FNR
                unit = unit == "" ? $0 : unit " " $0
                next
            }
            { flush() }
            END { flush() }')
    if [ -n "$found" ]; then
        while IFS= read -r line; do complain "$line"; done <<<"$found"
    fi
}

# The anchors of a file's headings.
anchors() {
    sed -n 's/^#\{1,6\} *//p' "$1" | tr 'A-Z' 'a-z' | sed 's/[^a-z0-9 _-]//g; s/ /-/g'
}

# check_links FILE: each link leads somewhere, and each document that is named is there.
check_links() {
    local target place anchor name folder
    folder=$(dirname "$1")
    while IFS= read -r target; do
        case $target in http:* | https:* | '') continue ;; esac
        place=${target%%#*}
        anchor=
        if [ "$place" != "$target" ]; then anchor=${target#*#}; fi
        if [ -z "$place" ]; then place=$1; else place=$folder/$place; fi
        if [ ! -e "$place" ]; then
            complain "$1: the link $target leads nowhere"
        elif [ -n "$anchor" ] && ! anchors "$place" | grep -q -x -F -e "$anchor"; then
            complain "$1: $target has no such heading"
        fi
    done < <(sed 's/`[^`]*`//g' "$1" | grep -o '](\([^)]*\))' | sed 's/^](//; s/)$//')
    while IFS= read -r name; do
        if [ ! -e "$folder/$name" ] && [ ! -e "$name" ] && [ ! -e "docs/$name" ]; then complain "$1: it names $name, which isn't there"; fi
    done < <(grep -o '[A-Za-z0-9_./-]*\.md' "$1" | sort -u)
}

if [ $# -gt 0 ]; then
    for file in "$@"; do check_words "$file"; done
    exit "$wrong"
fi

bytes=$(wc -c <README.md)
[ "$bytes" -le "$most_bytes" ] || complain "README.md has $bytes bytes"

bytes=$(wc -c <docs/ARCHITECTURE.md)
[ "$bytes" -le 15000 ] || complain "docs/ARCHITECTURE.md has $bytes bytes"

# A case of RUNBOOK has at most ten lines to type.
while IFS= read -r line; do complain "docs/RUNBOOK.md: $line"; done < <(awk '
    function end() { if (typed > 10) print heading " has " typed " lines to type" }
    /^## / { end(); heading = $0; typed = 0 }
    /^    / { typed++ }
    END { end() }
' docs/RUNBOOK.md)

while IFS= read -r word; do complain "$word has no comment"; done < <(docs/tables --bare)
while IFS= read -r line; do complain "$line"; done < <(docs/counts --check)
while IFS= read -r line; do complain "$line"; done < <(tools/fit-edits)

# listed WHAT FILE PATTERN: the file has a row of a table in which this is.
listed() {
    grep -q -e "^|.*$3" "$2" || complain "$2 has no row for $1"
}

# The crates that the areas of ARCHITECTURE name, each area joined with each word beside it; a row without an area is of the area above it, and
# an area that doesn't end with `_` is a crate. `area_..`, where the rest of an area is left out.
tabled() {
    awk -F '|' '
        /^\| Area \|/ { inside = 1; next }
        inside && !/^\|/ { exit }
        !inside || /^\|---/ { next }
        {
            gsub(/[` ]/, "", $2)
            if ($2 != "") area = $2
            if (area !~ /_$/) { print area; next }
            count = split($3, words, ",")
            for (i = 1; i <= count; i++) { gsub(/[` ]/, "", words[i]); print area words[i] }
        }' docs/ARCHITECTURE.md
}
mapfile -t crates < <(sed -n 's/^\([a-z_]*\):.*/\1/p' crates.txt)
named=$'\n'$(tabled)$'\n'
for crate in "${crates[@]}"; do
    if [[ $named != *$'\n'"$crate"$'\n'* && $named != *$'\n'"${crate%%_*}_.."$'\n'* ]]; then complain "docs/ARCHITECTURE.md has no area with the crate $crate"; fi
done
for crate in $named; do
    if [[ $crate != *.. && " ${crates[*]} " != *" $crate "* ]]; then complain "docs/ARCHITECTURE.md names $crate, which is no crate"; fi
done

# The fields of which a meaning says nothing: the last cell of its row of DEFINITIONS.
while IFS='|' read -r meaning fields; do
    silent=$(sed -n "s/^|.*\`$meaning\`.* | \([^|]*\) |$/\1/p" docs/DEFINITIONS.md | tr -d '\`')
    [ "$silent" = "$fields" ] || complain "docs/DEFINITIONS.md gives '$silent' as what $meaning doesn't say, and it is '$fields'"
done < <(docs/figures --silent)

# Each crate has a row of PROVED, each check one of TESTING, each option one of MOVING, and each status that a command's crate has one of STATUS.
for crate in "${crates[@]}"; do listed "the crate $crate" docs/PROVED.md "\`$crate\`"; done
for check in checks/*.sh; do
    # (wrong bodies are tried crate by crate)
    if [ "$check" != checks/edits.sh ]; then listed "$check" docs/TESTING.md "\`${check#checks/}\`"; fi
done
for option in $(sed -n 's/^row [A-Za-z0-9]* = [a-z_]* (codes "\([a-z0-9-]*\)").*/\1/p' crates/options_table/specs/Table.antt); do
    # (one of a tool that isn't built)
    if [ "$option" != number ]; then listed "the option $option" docs/MOVING.md "\`$option\`"; fi
done
for crate in "${crates[@]}"; do
    case $crate in cmd_* | run_* | program_run) ;; *) continue ;; esac
    for status in $(cat "crates/$crate"/specs/*.antt 2>/dev/null | sed -n 's/^[a-z_]*status .* = \([0-9]*\)$/\1/p' | sort -u); do
        grep -q "^| $status |" docs/STATUS.md || complain "docs/STATUS.md has no row for $status of $crate"
    done
done

# Each file that STATUS names as the one that makes a line is there.
for file in $(grep -o '`[a-z_]*/[a-z_/]*\.rt`' docs/STATUS.md | tr -d '`' | sort -u); do
    [ -e "crates/${file%%/*}/src/${file#*/}" ] || complain "docs/STATUS.md names $file, which isn't there"
done

# The program's hints: of each status from 2 on that has a line, the last column of STATUS, and a part of the line where there are several.
advice() {
    sed -n 's/^| \([0-9]*\) | .* | \(.*\) | \(.*\) |$/\1\t\2\t\3/p' docs/STATUS.md | tr -d '`' |
        awk -F '\t' '$1 > 1 && $1 < 126 && $2 != "none" { printf "%03d\t%s\t%s\n", $1, $3, $2 }' | LC_ALL=C sort
}
hints() {
    sed -z 's/\\\n *//g; s/\n */ /g' crates/pgbackrest/src/hints.rt | grep -o '( *"[0-9]*", "[^"]*", "[^"]*",\? *)' |
        sed 's/^( *"\([0-9]*\)", "\([^"]*\)", "\([^"]*\)",\? *)$/\1\t\3\t\2/' | LC_ALL=C sort
}
if ! diff <(advice | cut -f 1,2) <(hints | cut -f 1,2); then complain 'the hints of the program are not the advice of docs/STATUS.md'; fi
while IFS= read -r line; do complain "$line"; done < <(paste <(advice) <(hints | cut -f 3) |
    awk -F '\t' 'index($3, $4) == 0 { printf "the line of %s has no part \"%s\"\n", $1, $4 }')

check_comments
for file in README.md docs/*.md docs/decisions/*.md contrib/README.md; do
    check_links "$file"
    check_words "$file"
done
exit "$wrong"
