#!/bin/sh
# All tests, one after the other: the prover's gate, the auditor's page, then the programs in C over the static library.
# Each part ends with a line 'N passed, M failed'; a part that ends without one counts as one failure.
# What a part says of its progress is shown as it goes, all of it is kept in build/NAME.log.
# The last line sums them up; the exit status is 0 only if nothing failed.
set -u
cd "$(dirname "$0")/.." || exit 1
mkdir -p build
passed=0
failed=0

# part NAME COMMAND ..: runs a part and adds its counts
part() {
    name=$1
    shift
    echo "== $name"
    {
        "$@" 2>&1
        echo $? > "build/$name.status"
    } | tee "build/$name.log" | grep --line-buffered -E '^rt: |^building |^n [0-9]| tests |^The most: ' | sed -u -e 's/^\(.\{110\}\).*/\1/' -e 's/^/   /'
    status=$(cat "build/$name.status")
    last=$(tail -n 1 "build/$name.log")
    case $last in
        *[0-9]' passed, '[0-9]*' failed')
            p=$(echo "$last" | sed 's/^.*[^0-9]\([0-9][0-9]*\) passed.*$/\1/; s/^\([0-9][0-9]*\) passed.*$/\1/')
            f=$(echo "$last" | sed 's/^.*passed, \([0-9][0-9]*\) failed$/\1/')
            ;;
        *)
            p=0
            f=1
            ;;
    esac
    if [ "$status" -ne 0 ] && [ "$f" -eq 0 ]; then
        f=1
    fi
    passed=$((passed + p))
    failed=$((failed + f))
    if [ "$f" -ne 0 ]; then
        tail -n 60 "build/$name.log"
    fi
    echo "   $p passed, $f failed"
}

# The prover's gate over all crates. An edit that cannot be applied or read (bad) says nothing of a promise, so it fails too.
prover() {
    {
        rt ci 2>&1
        echo $? > build/rt-ci.status
    } | tee build/rt-ci.log
    ! grep -qE '^rt: ok.*, [0-9]+ bad' build/rt-ci.log && [ "$(cat build/rt-ci.status)" -eq 0 ]
}

part prover prover
part statement make --no-print-directory statement-test
part calls sh tests/calls.sh
part tools sh tests/tools.sh
part library make --no-print-directory library-test
part header make --no-print-directory header-test
part reference make --no-print-directory reference-test
part vectors make --no-print-directory vectors-test
part ground make --no-print-directory ground-test
part board make --no-print-directory board-test
part mailbox make --no-print-directory mailbox-test
part notice make --no-print-directory notice-test
part line make --no-print-directory line-test
part notice-line make --no-print-directory notice-line-test
part drill make --no-print-directory drill-test
part program make --no-print-directory program-test
part stack make --no-print-directory stack-test
part examples make --no-print-directory examples-test

echo "$passed passed, $failed failed"
[ "$failed" -eq 0 ]
