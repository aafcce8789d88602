#!/bin/sh
# Fuzzes for so many minutes: fuzz/run.sh MINUTES [SEED]. In turns, build/fuzz/find looks for inputs that reach new places of
# the reference, and build/fuzz/replay hands all of these, each also with changed bytes, to the reference and to the library.
# The found inputs stay in build/fuzz/corpus for the next time. RUN in the environment runs a program of the library where
# this machine cannot.
set -eu
minutes=$1
seed=${2:-$(date +%s)}
end=$(($(date +%s) + 60 * minutes))
tried=0
handed=0
calls=0
rounds=0

# turn SEARCH REPLAY: one of each, for so many seconds
turn() {
    build/fuzz/find -max_total_time="$1" -max_len=1024 -use_value_profile=1 -seed="$seed" -reload=0 -print_final_stats=1 \
        -artifact_prefix=build/fuzz/ build/fuzz/corpus > build/fuzz/find.log 2>&1 || {
        tail -n 40 build/fuzz/find.log
        echo "the search stopped at an input: it is in build/fuzz"
        exit 1
    }
    # shellcheck disable=SC2086
    $RUN build/fuzz/replay "$2" "$seed" build/fuzz/corpus > build/fuzz/replay.log 2>&1 || {
        tail -n 20 build/fuzz/replay.log
        exit 1
    }
    tried=$((tried + $(sed -n 's/^stat::number_of_executed_units: *//p' build/fuzz/find.log)))
    handed=$((handed + $(sed -n 's/^\([0-9]*\) inputs from .*/\1/p' build/fuzz/replay.log)))
    calls=$((calls + $(awk '/ calls / { sub(/ calls .*/, ""); sum += $NF } END { print sum + 0 }' build/fuzz/replay.log)))
}

mkdir -p build/fuzz/corpus
echo "fuzzing for $minutes minutes, from seed $seed on"
while left=$((end - $(date +%s))) && [ "$left" -gt 3 ]; do
    turn $((left > 60 ? 35 : left / 2)) $((left > 60 ? 25 : left / 2))
    rounds=$((rounds + 1))
    seed=$((seed + 1))
    kept=$(find build/fuzz/corpus -type f | wc -l)
    echo "$tried inputs tried, $kept kept, $(grep -o 'cov: [0-9]*' build/fuzz/find.log | tail -n 1);" \
        "$handed through the library and the reference, $calls calls, no difference"
done
cat build/fuzz/replay.log
echo "$rounds passed, 0 failed"
