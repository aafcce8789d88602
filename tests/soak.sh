#!/bin/sh
# Whole lines of boards for so many minutes, with a new seed each time: soak.sh MINUTES RUNS [SEED].
# With each seed lines of fragments, then lines of notices. Stops at the first failure and says which seed it was. Shows what
# was seen as it goes, and all of it at the end. RUN in the environment runs a program of the library where this machine cannot.
set -eu
minutes=$1
runs=$2
seed=${3:-$(date +%s)}
end=$(($(date +%s) + 60 * minutes))
times=0

# so_far PROGRAM: the figures of all seeds so far. The last line of figures of each is in build/soak-PROGRAM.sums: its words stay,
# its numbers are added up, but for those before a colon, which are names of refusals.
so_far() {
    awk '
        { count = NF; for (i = 1; i <= NF; i++) { word[i] = $i; if ($i ~ /^[0-9]+[,;]?$/) sum[i] += $i } }
        END {
            for (i = 1; i <= count; i++) {
                end = word[i] ~ /[,;]$/ ? substr(word[i], length(word[i])) : ""
                printf "%s%s", i in sum ? sprintf("%d%s", sum[i], end) : word[i], i < count ? " " : "\n"
            }
        }' "build/soak-$1.sums"
}

# one PROGRAM: all its runs with this seed
one() {
    # shellcheck disable=SC2086
    { $RUN "build/$1" "$runs" "$seed" || echo "stopped with $?"; } 2>&1 | tee build/soak.log | grep --line-buffered ' runs, ' || true
    if ! tail -n 1 build/soak.log | grep -q '[0-9] passed, 0 failed$'; then
        tail -n 40 build/soak.log
        echo "failed with seed $seed: $1"
        exit 1
    fi
    grep ' runs, ' build/soak.log | tail -n 1 >> "build/soak-$1.sums"
    times=$((times + 1))
    echo "seed $seed passed; so far $(so_far "$1")"
}

: > build/soak-line-test.sums
: > build/soak-notice-line-test.sums
echo "whole lines of boards for $minutes minutes, from seed $seed on"
while [ "$(date +%s)" -lt "$end" ]; do
    one line-test
    one notice-line-test
    seed=$((seed + 1))
done
for program in line-test notice-line-test; do
    echo "in all $(so_far "$program")"
done
echo "$times passed, 0 failed"
