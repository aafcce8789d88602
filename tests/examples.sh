#!/bin/sh
# The example programs run to their end, their promises hold, their pictures are well formed, and bad options are told.
# RUN in the environment runs a program of the library where this machine cannot.
set -eu
passed=0
failed=0

line() {
    # shellcheck disable=SC2086
    $RUN build/line-demo "$@"
}

# say NAME STATUS: counts one test
say() {
    if [ "$2" -eq 0 ]; then
        passed=$((passed + 1))
    else
        failed=$((failed + 1))
        echo "FAILED: $1"
    fi
}

# holds HELD ARGUMENT ..: a run to its end in which so many promises are said to have held
holds() {
    want=$1
    shift
    status=0
    line "$@" > build/line-demo.log || status=1
    [ "$(grep -c ' held$' build/line-demo.log)" -eq "$want" ] || status=1
    say "line $*" $status
}

# saves ARGUMENT ..: the same with mailboxes: the table tells the calls made, those saved, and that together they are the records
saves() {
    holds "$@"
    sed -n -e 's/^  handed over *\([0-9]*\) records:.*/\1/p' -e 's/^  mailboxes *\([0-9]*\) calls instead of \([0-9]*\): \([0-9]*\) saved$/\1 \2 \3/p' \
        build/line-demo.log | tr '\n' ' ' > build/line-demo.calls
    read -r records calls instead saved < build/line-demo.calls || true
    [ "$records" = "$instead" ] && [ "$saved" -gt 0 ] && [ $((calls + saved)) -eq "$records" ] && say "calls saved: $*" 0 || say "calls saved: $*" 1
}

# draws ARGUMENT ..: the run's picture is whole and well formed, and has arrows
draws() {
    rm -f build/test.svg
    status=0
    line --picture build/test.svg "$@" > build/line-demo.log || status=1
    well_formed build/test.svg || status=1
    grep -q '<path class="a' build/test.svg || status=1
    say "picture of line $*" $status
}

# Every element that is opened is closed in its order, and no bare & or < stands in the text.
well_formed() {
    [ "$(head -c 4 "$1")" = '<svg' ] && [ "$(tail -n 1 "$1")" = '</svg>' ] || return 1
    ! sed 's/&amp;//g; s/&lt;//g; s/&gt;//g' "$1" | grep -q '&' || return 1
    tr '\n' ' ' < "$1" | sed 's/</\n</g' | awk '
        NR == 1 { next }
        { tag = $0; sub(/>.*/, "", tag); if (gsub(/"/, "", tag) % 2) bad = 1 }
        !/^<\/?[a-z]+[^<>]*>[^<>]*$/ { bad = 1 }
        /^<\// { name = $0; sub(/^<\//, "", name); sub(/>.*/, "", name); if (open[depth--] != name) bad = 1; next }
        /^<[^>]*\/>/ { next }
        { name = $0; sub(/^</, "", name); sub(/[ >].*/, "", name); open[++depth] = name }
        END { exit bad || depth != 0 }'
}

# refuses WORDS ARGUMENT ..: exit status 2, and these words
refuses() {
    words=$1
    shift
    status=0
    line "$@" > build/line-demo.log 2>&1 || status=$?
    [ "$status" -eq 2 ] && grep -q -- "$words" build/line-demo.log && status=0 || status=1
    say "line $* is refused: $words" $status
}

# shellcheck disable=SC2086
$RUN build/demo > build/demo.log && say ground 0 || say ground 1
# shellcheck disable=SC2086
# a file that stays the same
seq 1 800 > build/numbers
$RUN build/seven build/numbers > build/seven.log || true
[ "$(grep -c 'bytes: the file$' build/seven.log)" -eq 7 ] && say seven 0 || say seven 1

# shellcheck disable=SC2086
$RUN build/notice > build/notice.log && [ "$(grep -c '^board [1-3] delivers 15 bytes: shelf door open$' build/notice.log)" -eq 3 ] &&
    [ "$(wc -l < build/notice.log)" -eq 3 ] && say notice 0 || say notice 1
# shellcheck disable=SC2086
$RUN build/notice '' > build/notice.log && [ "$(grep -c 'delivers 0 bytes: $' build/notice.log)" -eq 3 ] && say "an empty notice" 0 || say "an empty notice" 1
# shellcheck disable=SC2086
$RUN build/notice "$(seq -s ' ' 1 26)" > build/notice.log 2>&1 && say "a notice of 68 bytes" 1 ||
    { grep -q 'was refused with 13$' build/notice.log && say "a notice of 68 bytes" 0 || say "a notice of 68 bytes" 1; }

holds 2 --seed 10 --breaks 1:fails,4:lies build/numbers
[ "$(grep -c 'vote  the file' build/line-demo.log)" -eq 5 ] && say "all deliver the file" 0 || say "all deliver the file" 1
holds 2 --seed 1 --breaks 1:garbles,4:lies build/numbers
[ "$(grep -c 'vote  void' build/line-demo.log)" -eq 5 ] && say "all deliver void" 0 || say "all deliver void" 1
holds 2 --seed 1 --breaks 1:splits,7:lies build/numbers
holds 2 --seed 1 --breaks 1:silent,3:fails
holds 3 --seed 1 --breaks 5:fails,6:lies --loss 50 build/numbers
holds 3 --seed 1 -n 1 /dev/null
holds 3 --seed 1 -n 64 --breaks 2:lies,3:lies,64:fails
for seed in 1 2 3 4 5 6 7 8 9; do
    holds 2 --seed $seed --breaks 1:lies,2:lies
    holds 3 --seed $seed --breaks 2:lies,3:lies --loss 30
done

saves 2 --seed 10 --poll 10 --breaks 1:fails,4:lies build/numbers
saves 2 --seed 1 --poll 10 --breaks 1:garbles,4:lies build/numbers
saves 3 --seed 1 --poll 1000 --breaks 2:lies build/numbers
holds 2 --seed 1 --poll 1000 --breaks 1:silent,3:fails
saves 3 --seed 1 --poll 25 --loss 50 --breaks 5:fails,6:lies build/numbers
saves 3 --seed 1 --poll 40 -n 64 --breaks 2:lies,3:lies,64:fails
holds 3 --seed 1 --poll 1 -n 1 /dev/null
for seed in 1 2 3 4 5 6 7 8 9; do
    holds 2 --seed $seed --poll $seed --breaks 1:lies,2:lies
    holds 3 --seed $seed --poll $((10 * seed)) --breaks 2:lies,3:lies --loss 30
done
# notices: 64 bytes, none, such as are no text
longest=$(seq -s '' 1 40 | head -c 64)
holds 3 --seed 1 --notice 'shelf door open' --breaks 3:lies,4:fails
[ "$(grep -c '  the notice ' build/line-demo.log)" -eq 5 ] && say "all deliver the notice" 0 || say "all deliver the notice" 1
grep -q '^the notice "shelf door open", 15 bytes, from board 1 to 7 boards' build/line-demo.log && say "the notice is named" 0 || say "the notice is named" 1
holds 3 --seed 2 --notice '' --breaks none
grep -q '^the notice "", 0 bytes' build/line-demo.log && say "an empty notice is named" 0 || say "an empty notice is named" 1
holds 3 --seed 3 --notice "$longest" --loss 50 --breaks 2:silent,7:lies
holds 3 --seed 4 --notice "$longest" -n 1
holds 3 --seed 5 --notice "$(printf 'tab\tand \033[1m')" -n 4 --breaks none
grep -q '^the notice "tab?and ?\[1m", 12 bytes' build/line-demo.log && say "no notice drives a terminal" 0 || say "no notice drives a terminal" 1
holds 3 --seed 1 --notice 'shelf door open' -n 64 --breaks 2:lies,3:lies,64:fails
holds 2 --seed 4 --notice 'shelf door open' --breaks 1:splits,4:lies
for seed in 1 2 3 4 5 6 7 8 9; do
    holds 2 --seed $seed --notice 'shelf door open' --breaks 1:lies,2:lies
    holds 3 --seed $seed --notice '' --breaks 2:lies,3:lies --loss 30
    holds 2 --seed $seed --notice "$longest" --breaks 1:splits,7:fails
done

holds 3 --seed 1 --breaks none
grep -q '^  mailboxes' build/line-demo.log && say "no mailboxes, no word of them" 1 || say "no mailboxes, no word of them" 0

draws --seed 10 --breaks 1:fails,4:lies build/numbers
draws --seed 1 --breaks 1:garbles,4:lies build/numbers
draws --seed 3 -n 13 --loss 40 --breaks none
draws --seed 3 -n 20 --breaks 1:splits,2:silent
draws --seed 3 --poll 15 --breaks 4:lies
draws --seed 1 --notice 'shelf door open' --breaks 1:splits,4:lies
grep -q '<title>7 boards spread a notice</title>' build/test.svg && grep -q ', notice "shelf door open", accepted' build/test.svg &&
    ! grep -q void build/test.svg && say "the picture tells of notices" 0 || say "the picture tells of notices" 1
draws --seed 1 --notice 'a<b>&"c' -n 4
odd='build/a<b>&"c.txt'
echo odd > "$odd"
draws --seed 1 "$odd"
rm -f "$odd"

line --help > build/line-demo.log && grep -q '^usage: ' build/line-demo.log && grep -q '  --poll MS  ' build/line-demo.log && grep -q '  --notice TEXT  ' build/line-demo.log && say help 0 || say help 1
refuses 'there must be 1 to 64 boards' -n 0
refuses 'there must be 1 to 64 boards' -n 65
refuses '3t must be below n' -n 6 -t 2
refuses 'a number of at most nine digits must follow: -n' -n seven
refuses 'something must follow: --seed' --seed
refuses 'at most 90 of 100' --loss 91
refuses 'there must be 1 to 1000 ms from poll to poll' --poll 0
refuses 'there must be 1 to 1000 ms from poll to poll' --poll 1001
refuses 'a number of at most nine digits must follow: --poll' --poll often
refuses 'something must follow: --poll' --poll
refuses 'no such option: --sed' --sed 1
refuses 'not NUMBER:HOW: 3' --breaks 3
refuses 'no such board: 8:lies' --breaks 8:lies
refuses 'no such way' --breaks 3:sleeps
refuses 'only the sender' --breaks 3:garbles
refuses 'named twice' --breaks 3:lies,3:fails
refuses 'more boards than t' --breaks 1:lies,2:lies,3:lies
refuses 'one file at a time' README.md Makefile
refuses 'No such file' build/no-such-file
refuses 'longer than 16,384 bytes' build/line-demo
refuses 'No such file' --picture build/no-such-folder/x.svg
refuses 'a notice has at most 64 bytes: ' --notice "${longest}x"
refuses 'something must follow: --notice' --notice
refuses 'given twice: --notice' --notice a --notice b
refuses 'a notice or a file, not both: README.md' --notice a README.md
refuses 'a notice or a file, not both: README.md' --file README.md --notice a
refuses 'notices have no mailbox: --poll does not go with --notice' --notice a --poll 10
refuses 'a notice has no fragments to garble: 1:garbles' --notice a --breaks 1:garbles

echo "$passed passed, $failed failed"
[ "$failed" -eq 0 ]
