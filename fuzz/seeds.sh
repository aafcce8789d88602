#!/bin/sh
# Inputs to begin with, into the folder given. An input's first byte chooses the call (fuzz.c has their order).
set -eu
to=$1
mkdir -p "$to"
root=0123456789abcdef0123456789abcdef

printf "\\005\\003\\000\\040$root\\000\\000\\000\\000" > "$to/seed-vote"
printf "\\005\\001\\000\\040$root\\000\\000\\000\\001x" > "$to/seed-send"
printf "\\005\\002\\000\\040$root\\000\\001$root\\000\\002xy" > "$to/seed-echo"
printf "\\016\\004\\000\\005hello" > "$to/seed-notice-send"
printf "\\016\\006\\000\\000" > "$to/seed-notice-vote"
# Longer ones for every call: the runs of steps and of mailboxes need many draws. The bytes are those of a small generator.
for call in 0 1 2 3 4 5 6 7 8 9 10 10 10 10 10 10 11 11 11 11 13 13 13 13 15 16 17 18 18 18 18 19 19 19 19; do
    seed=$((${seed:-0} + 1))
    awk -v call=$call -v sum=$seed 'BEGIN {
        line = sprintf("%o", call)
        for (i = 0; i < 280; i++) {
            sum = (sum * 16807) % 2147483647
            line = line sprintf(" %o", int(sum / 65536) % (i % 3 ? 226 : 256))
        }
        print line
    }' | tr ' ' '\n' | while read -r byte; do printf "\\$byte"; done > "$to/seed-$seed"
done
