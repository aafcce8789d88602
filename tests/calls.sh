#!/bin/sh
# No function that C calls asks anything of its caller, and none lacks a promise: a `requires`, or no `ensures`, on an exported function fails.
# What each promises is written down in tests/promises.txt too: a promise that says less cannot slip in unseen, it must be changed in both places.
# The looks themselves are tried on wrong copies of the library's calls.
set -eu
passed=0
failed=0
mkdir -p build

# look FILE ..: prints each exported function with a `requires` or without an `ensures`
look() {
    awk '
        FNR == 1 { name = "" }
        /pub extern "C" fn/ { name = $0; sub(/.*fn /, "", name); sub(/[(<].*/, "", name); asks = 0; says = 0; where = FILENAME ":" FNR }
        name != "" && /requires/ { asks = 1 }
        name != "" && /ensures/ { says = 1 }
        name != "" && /^\{/ {
            if (asks) print where ": " name " has a requires"
            if (!says) print where ": " name " has no ensures"
            name = ""
        }' "$@"
}

# promises FILE ..: the promises of exported functions, a line each
promises() {
    awk '
        FNR == 1 { name = "" }
        /pub extern "C" fn/ { name = $0; sub(/.*fn /, "", name); sub(/[(<].*/, "", name); line = "" }
        name != "" && /^\{/ { print name ":" line; name = "" }
        name != "" && (line != "" || /ensures/) { part = $0; sub(/^ */, " ", part); line = line part }' "$@"
}

# say NAME YES: counts one test
say() {
    if [ "$2" = yes ]; then
        passed=$((passed + 1))
    else
        failed=$((failed + 1))
        echo "FAILED: $1"
    fi
}

found=$(look crates/*/src/*.rt)
[ -z "$found" ] && say "no exported function asks anything" yes || { echo "$found"; say "no exported function asks anything" no; }

sed 's/^    ensures { result ≡ hash_of string.now }/    requires { 0 < 1 }\n&/' crates/tumbeliko/src/lib.rt > build/calls-asking.rs
[ "$(look build/calls-asking.rs | grep -c 'tumbeliko_hash has a requires')" = 1 ] && say "a requires is found" yes || say "a requires is found" no
sed '/^    ensures { result ≡ hash_of/d' crates/tumbeliko/src/lib.rt > build/calls-silent.rs
[ "$(look build/calls-silent.rs | grep -c 'tumbeliko_hash has no ensures')" = 1 ] && say "a missing ensures is found" yes || say "a missing ensures is found" no

promises crates/tumbeliko/src/lib.rt crates/drill/src/lib.rt > build/promises.txt
cmp -s build/promises.txt tests/promises.txt && say "the promises are those written down" yes || {
    diff tests/promises.txt build/promises.txt || true
    say "the promises are those written down (tests/promises.txt)" no
}
sed '/^    ensures { encoded result /{N;s/.*/    ensures { result.number ≡ 0 }/}' crates/tumbeliko/src/lib.rt > build/calls-weaker.rs
promises build/calls-weaker.rs crates/drill/src/lib.rt | cmp -s - tests/promises.txt && say "a weaker promise is found" no || say "a weaker promise is found" yes

echo "$passed passed, $failed failed"
[ "$failed" -eq 0 ]
