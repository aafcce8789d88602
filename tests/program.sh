#!/bin/sh
# The program tumbeliko on sample files: what it prints, to the byte, and its exit status. In tests/program NAME.hex is a record
# as a log shows it, NAME.out what is printed of it.
# RUN in the environment runs a program of the library where this machine cannot; LIB is the archive that was installed.
set -eu
passed=0
failed=0
program=$PWD/build/tumbeliko
samples=$PWD/tests/program
room=$PWD/build/program-files
printed=$room/printed
told=$room/told

# say NAME STATUS: counts one test
say() {
    if [ "$2" -eq 0 ]; then
        passed=$((passed + 1))
    else
        failed=$((failed + 1))
        echo "FAILED: $1"
    fi
}

# runs ARGUMENT ..: leaves what was printed and told, and the exit status
runs() {
    status=0
    # shellcheck disable=SC2086
    $RUN "$program" "$@" > "$printed" 2> "$told" || status=$?
}

# shows STATUS OUT ARGUMENT ..: prints OUT.out, tells nothing, and ends with this status
shows() {
    want=$1
    out=$2
    shift 2
    runs "$@"
    echo "$out" >> "$room/used"
    [ "$status" -eq "$want" ] && cmp "$samples/$out.out" "$printed" && [ ! -s "$told" ] && say "tumbeliko $*" 0 || say "tumbeliko $*" 1
}

# tells WORDS ARGUMENT ..: prints nothing, tells these words alone, and ends with 2
tells() {
    words=$1
    shift
    runs "$@"
    [ "$status" -eq 2 ] && [ "$(cat "$told")" = "$words" ] && [ ! -s "$printed" ] && say "tumbeliko $*: $words" 0 || say "tumbeliko $*: $words" 1
}

# bytes: pairs of hex digits, lower case, in; their bytes out
bytes() {
    printf %b "$(tr -d '\n' | awk '{
        for (i = 1; i < length($0); i += 2)
            printf "\\0%03o", 16 * index("123456789abcdef", substr($0, i, 1)) + index("123456789abcdef", substr($0, i + 1, 1)) }')"
}

# sample STATUS NAME: read as hex, and as a file of the same bytes, which has the same name so that the same is printed
sample() {
    cd "$samples"
    shows "$1" "$2" record --hex "$2.hex"
    bytes < "$2.hex" > "$room/$2.hex"
    cd "$room"
    shows "$1" "$2" record "$2.hex"
}

rm -rf "$room"
mkdir -p "$room/folder"

# ---- records

sample 0 send
sample 0 echo
sample 0 vote
sample 0 send-six
sample 0 notice-send
sample 0 notice-echo
sample 0 notice-vote
sample 0 notice-odd

sample 1 cut-nothing
sample 1 cut-root-count
sample 1 cut-root
sample 1 cut-path-count
sample 1 cut-path
sample 1 cut-fragment-count
sample 1 cut-fragment
sample 1 kind-0
sample 1 kind-7
sample 1 kind-255
sample 1 root-31
sample 1 root-swapped
sample 1 path-7
sample 1 path-256
sample 1 path-of-vote
sample 1 fragment-0
sample 1 fragment-16389
sample 1 fragment-of-vote
sample 1 left-one
sample 1 left-many
sample 1 notice-cut-count
sample 1 notice-cut-before
sample 1 notice-cut-inside
sample 1 notice-65
sample 1 notice-65-alone
sample 1 notice-swapped
sample 1 notice-left-one
sample 1 notice-left-many

cd "$room"
shows 0 send-six-all record --all send-six.hex
shows 1 cut-path-all record --all cut-path.hex
shows 1 left-many-all record --all left-many.hex
shows 0 notice-echo record --all notice-echo.hex
shows 1 notice-left-many-all record --all notice-left-many.hex

# The longest record: six nodes, 16,388 bytes of fragment.
{
    printf '\002\000\040'
    head -c 32 /dev/zero | tr '\000' R
    printf '\000\006'
    head -c 192 /dev/zero | tr '\000' P
    printf '\100\004'
    head -c 16387 /dev/zero | tr '\000' A
    printf Z
} > longest
shows 0 longest record longest

# All cuts of a record, in one call: the first line of each.
for kind in send echo vote notice-send; do
    mkdir "cuts-of-$kind"
    cd "cuts-of-$kind"
    length=$(wc -c < "../$kind.hex")
    i=0
    while [ "$i" -le "$length" ]; do
        head -c "$i" "../$kind.hex" > "$(printf %03d "$i")"
        i=$((i + 1))
    done
    runs record -- *
    grep '^[0-9]' "$printed" > "../cuts" || true
    echo "cuts-of-$kind" >> "$room/used"
    [ "$status" -eq 1 ] && [ ! -s "$told" ] && cmp "$samples/cuts-of-$kind.out" ../cuts && say "cuts of $kind" 0 || say "cuts of $kind" 1
    cd ..
done

# Every sample is one of those above.
[ "$(ls "$samples" | sed -n 's/\.out$//p' | sort)" = "$(sort -u used)" ] && say "all samples are tried" 0 || say "all samples are tried" 1

# ---- hex

# spells HOW TEXT: the text is hex of the vote
spells() {
    printf %s "$2" > text
    runs record --hex - < text
    sed '1s/^-:/vote.hex:/' "$printed" > spelt
    [ "$status" -eq 0 ] && [ ! -s "$told" ] && cmp "$samples/vote.out" spelt && say "hex: $1" 0 || say "hex: $1" 1
}

pairs=$(tr -d '\n' < "$samples/vote.hex")
spells 'nothing between pairs' "$pairs"
spells 'upper case' "$(echo "$pairs" | tr a-f A-F)"
spells 'blanks' "$(echo "$pairs" | sed 's/../& /g')"
spells 'tabs' "$(echo "$pairs" | sed 's/../& /g' | tr ' ' '\t')"
spells 'newlines' "$(echo "$pairs" | sed 's/../& /g' | tr ' ' '\n')"
spells 'carriage returns and newlines' "$(echo "$pairs" | sed 's/..../& /g' | awk '{ gsub(/ /, "\r\n"); print }')"
spells 'colons' "$(echo "$pairs" | sed 's/../&:/g; s/:$//')"
spells 'colons at the ends of lines' "$(echo "$pairs" | sed 's/../&:/g; s/:$//; s/.\{15\}/& /g' | tr ' ' '\n')"
spells 'colons between blanks' "$(echo "$pairs" | sed 's/../& : /g; s/ : $//')"
spells '0x' "$(echo "$pairs" | sed 's/../0x& /g')"
spells '0X' "$(echo "$pairs" | tr a-f A-F | sed 's/../0X& /g')"
spells '0x and nothing between pairs' "$(echo "$pairs" | sed 's/../0x&/g')"
spells '0x in front of the first pair alone' "0x$pairs"
spells 'all at once' "$(printf '\n\t  \r\n0x03: 00\n:\n\n0X20\t%s \r\n ' "${pairs#030020}")"

# misspells WHAT TEXT: the text, a format of printf, is no hex
misspells() {
    # shellcheck disable=SC2059
    printf "$2" > misspelt
    tells "tumbeliko: record: misspelt: $1" record --hex misspelt
}

misspells 'line 1, column 1: one hex digit alone; two make a byte' '3'
misspells 'line 1, column 7: one hex digit alone; two make a byte' '03 00 2\n'
misspells 'line 2, column 4: one hex digit alone; two make a byte' '0300\n20 4 1\n'
misspells 'line 1, column 3: one hex digit alone; two make a byte' '030:20\n'
misspells 'line 2, column 1: one hex digit alone; two make a byte' '03\r\n0x2 00\n'
misspells "line 1, column 1: 'g' is no hex digit" 'g3'
misspells "line 1, column 2: 'G' is no hex digit" '0G'
misspells "line 3, column 4: 'x' is no hex digit" '03\n\n00 x20\n'
misspells "line 1, column 4: 'x' is no hex digit" '0x0x03'
misspells "line 1, column 3: ',' is no hex digit" '03,00'
misspells "line 1, column 3: '-' is no hex digit" '03-00'
misspells 'line 1, column 1: byte 0xef is no hex digit' '\357\273\27703'
misspells 'line 2, column 2: byte 0x1b is no hex digit' '03\n0\03303'
misspells 'line 1, column 3: byte 0x00 is no hex digit' '03\00003'
misspells 'line 1, column 4: 0x without two hex digits' '03 0x'
misspells 'line 1, column 1: 0x without two hex digits' '0x 03'
misspells 'line 1, column 1: a colon that is not between two pairs' ':03'
misspells 'line 1, column 4: a colon that is not between two pairs' '03::00'
misspells 'line 2, column 2: a colon that is not between two pairs' '03:\n :00'
misspells 'line 1, column 6: a colon that is not between two pairs' '03:00:\n\n'

# begins STATUS LINE ARGUMENT ..: the first line printed, and the exit status
begins() {
    want=$1
    words=$2
    shift 2
    runs "$@"
    [ "$status" -eq "$want" ] && [ "$(head -n 1 "$printed")" = "$words" ] && [ ! -s "$told" ] && say "tumbeliko $*: $words" 0 || say "tumbeliko $*: $words" 1
}

# Text that is read as bytes, and a byte that is no text.
refused="text: refused with 21 at byte 0: a kind of 48; 1 is a send, 2 is an echo, 3 is a vote, 4 is a notice's send, 5 is a notice's echo, 6 is a notice's vote"
cp "$samples/vote.hex" text
begins 1 "$refused (if the file is hex, --hex reads it)" record text
echo 30 > text
begins 1 "$refused" record --hex text

# ---- files

cp vote.hex vote
cp left-one.hex left
cp vote.hex ./--hex
cp vote.hex "$(printf 'odd\033[1m\n\177name')"
sed 's/^vote.hex:/vote:/' "$samples/vote.out" > vote.out
sed 's/^left-one.hex:/left:/' "$samples/left-one.out" > left.out
sed 's/^vote.hex:/--hex:/' "$samples/vote.out" > named-as-option.out
sed 's/^vote.hex:/-:/' "$samples/vote.out" > standard.out

# answers STATUS TOLD PRINTED ARGUMENT ..: the exit status, the one line told if any, and the files whose contents are printed in turn
answers() {
    want=$1
    words=$2
    files=$3
    shift 3
    runs "$@"
    # shellcheck disable=SC2086
    cat /dev/null $files > expected
    [ "$status" -eq "$want" ] && [ "$(cat "$told")" = "$words" ] && cmp expected "$printed" && say "tumbeliko $*" 0 || say "tumbeliko $*" 1
}

nowhere='tumbeliko: record: nowhere: No such file or directory'
answers 0 '' 'vote.out vote.out' record vote vote
answers 1 '' 'vote.out left.out' record vote left
answers 1 '' 'left.out vote.out' record left vote
answers 2 "$nowhere" 'left.out vote.out' record left nowhere vote
answers 2 "$nowhere" 'vote.out' record nowhere vote
answers 2 "$nowhere" '' record nowhere
answers 2 'tumbeliko: record: : No such file or directory' 'vote.out' record '' vote
answers 2 'tumbeliko: record: folder: Is a directory' 'vote.out' record folder vote
answers 2 'tumbeliko: record: folder: Is a directory' '' record --hex folder
answers 0 '' 'named-as-option.out vote.out' record -- --hex vote
answers 0 '' 'standard.out' record - < vote
answers 0 '' 'vote.out standard.out vote.out' record vote - vote < vote
answers 2 'tumbeliko: record: -: can be read only once' 'standard.out vote.out' record - - vote < vote
answers 2 'tumbeliko: record: -: Bad file descriptor' 'vote.out' record - vote <&-
answers 0 '' 'standard.out' record --hex - < "$samples/vote.hex"
answers 0 '' 'standard.out' record - --hex < "$samples/vote.hex"

# What is told comes where it belongs among what is printed.
status=0
# shellcheck disable=SC2086
$RUN "$program" record left nowhere vote > both 2>&1 || status=$?
{ cat left.out; echo "$nowhere"; cat vote.out; } | cmp - both && say "printed and told in order" "$((status != 2))" || say "printed and told in order" 1

# A megabyte is read, and not a byte more.
{ cat vote; head -c 1048537 /dev/zero; } > megabyte
{ cat megabyte; printf '\000'; } > large
begins 1 'megabyte: refused with 25 at byte 39: 1048537 bytes left over after a vote of 39 bytes' record megabyte
answers 2 'tumbeliko: record: large: too large: more than 1048576 bytes' 'vote.out' record large vote
answers 2 'tumbeliko: record: -: too large: more than 1048576 bytes' 'vote.out' record - vote < large
{ cat "$samples/vote.hex"; head -c 1048576 /dev/zero | tr '\000' ' '; } > large
answers 2 'tumbeliko: record: large: too large: more than 1048576 bytes' '' record --hex large
rm -f megabyte large

chmod 0 left
if ! cat left > /dev/null 2>&1; then
    answers 2 'tumbeliko: record: left: Permission denied' 'vote.out' record left vote
fi

begins 0 'odd\x1b[1m\x0a\x7fname: a vote of 39 bytes' record odd*
tells 'tumbeliko: record: no\x09where: No such file or directory' record "$(printf 'no\twhere')"

# lost WHERE ARGUMENT ..: what is printed gets lost, which is told
lost() {
    where=$1
    shift
    status=0
    # shellcheck disable=SC2086
    $RUN "$program" "$@" > "$where" 2> "$told" || status=$?
    [ "$status" -eq 2 ] && grep -q '^tumbeliko: standard output: ' "$told" && say "tumbeliko $* > $where" 0 || say "tumbeliko $* > $where" 1
}

if [ -c /dev/full ]; then
    lost /dev/full record vote
    lost /dev/full record --all longest
    lost /dev/full record longest nowhere
    lost /dev/full --help
fi
status=0
# shellcheck disable=SC2086
$RUN "$program" record vote >&- 2> "$told" || status=$?
[ "$status" -eq 2 ] && [ "$(cat "$told")" = 'tumbeliko: standard output: Bad file descriptor' ] && say "no standard output" 0 || say "no standard output" 1

# ---- words

usage='usage: tumbeliko SUBCOMMAND [OPTION].. FILE..
       tumbeliko help [SUBCOMMAND]'
usage_of_record='usage: tumbeliko record [--hex] [--all] FILE..'
tells "$usage"
tells "$usage" help record record
tells "$usage_of_record" record
tells "$usage_of_record" record --hex
tells "$usage_of_record" record --
tells 'tumbeliko: recrod: no such subcommand; `tumbeliko --help` lists them' recrod vote
tells 'tumbeliko: recrod: no such subcommand; `tumbeliko --help` lists them' help recrod
tells 'tumbeliko: : no such subcommand; `tumbeliko --help` lists them' ''
tells 'tumbeliko: --hex: no such option; `tumbeliko --help` tells more' --hex record vote
tells 'tumbeliko: record: --hx: no such option; --help tells more' record --hx vote
tells 'tumbeliko: record: --hx: no such option; --help tells more' record vote --hx
tells 'tumbeliko: record: -x: no such option; --help tells more' record -x vote
answers 2 'tumbeliko: record: --help: No such file or directory' '' record -- --help

# helps USAGE ARGUMENT ..: exit status 0, nothing told, and a help that begins so
helps() {
    words=$1
    shift
    runs "$@"
    [ "$status" -eq 0 ] && [ ! -s "$told" ] && [ "$(head -n "$(echo "$words" | wc -l)" "$printed")" = "$words" ] && say "tumbeliko $*" 0 || say "tumbeliko $*" 1
}

helps "$usage" --help
grep -q '^  record  ' "$printed" && say "the subcommands are listed" 0 || say "the subcommands are listed" 1
helps "$usage" help
helps "$usage_of_record" help record
cp "$printed" help
helps "$usage_of_record" record --help
cmp help "$printed" && say "one help of record" 0 || say "one help of record" 1
helps "$usage_of_record" record nowhere --help


# ---- the papers, and what is installed

cd ../..
sed 's/\\-/-/g' tools/tumbeliko.1 > "$room/manual"
sed -n 's/^    //p' README.md > "$room/readme"

for option in $(sed -n 's/^  \(--[a-z]*\) .*/\1/p' "$room/help"); do
    grep -q "^\\.B $option\$" "$room/manual" && say "the manual has $option" 0 || say "the manual has $option" 1
done
for number in $(sed -n 's/.*: refused with \([0-9]*\) .*/\1/p' tests/program/*.out | sort -u); do
    grep -q "^\\.B $number\$" "$room/manual" && say "the manual has $number" 0 || say "the manual has $number" 1
done

# quotes PAPER COMMAND: after this command line the paper has what was just printed
quotes() {
    lines=$(wc -l < "$printed")
    grep -F -x -A "$lines" -e "\$ $2" "$room/$1" | tail -n +2 | cmp - "$printed" && say "$1: $2" 0 || say "$1: $2" 1
}

runs record --hex tests/program/path-7.hex
quotes readme 'build/tumbeliko record --hex tests/program/path-7.hex'
cd tests/program
runs record --hex cut-path-count.hex
quotes manual 'tumbeliko record --hex cut-path-count.hex'
cd ../..
echo 09 00 20 > "$room/text"
runs record --hex - < "$room/text"
quotes manual 'echo 09 00 20 | tumbeliko record --hex -'

# installed FILE PLACE
installed() {
    cmp "$1" "build/installed/usr/$2" && say "installed: $2" 0 || say "installed: $2" 1
}

installed build/tumbeliko bin/tumbeliko
installed "$LIB" lib/libtumbeliko.a
installed include/tumbeliko.h include/tumbeliko.h
installed tools/tumbeliko.1 share/man/man1/tumbeliko.1
[ -x build/installed/usr/bin/tumbeliko ] && say "installed to be run" 0 || say "installed to be run" 1

echo "$passed passed, $failed failed"
[ "$failed" -eq 0 ]
