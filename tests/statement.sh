#!/bin/sh
# The auditor's page is made from the specs, with every call on it; and of broken copies of the specs, one for each way in which something
# that is cited can be missing, no page is made.
set -eu
command -v python3 > /dev/null || { echo "python3 is not here: it makes the page"; exit 1; }
passed=0
failed=0
copy=build/statement-copy

# say NAME STATUS: counts one test
say() {
    if [ "$2" -eq 0 ]; then
        passed=$((passed + 1))
    else
        failed=$((failed + 1))
        echo "FAILED: $1"
    fi
}

# of FOLDER PAGE: the page, made from a repository
of() {
    rm -f "$2"
    python3 -B docs/statement/statement.py --of "$1" "$2"
}

# fresh: a copy of all that the page is made from
fresh() {
    rm -rf "$copy"
    mkdir -p "$copy/docs"
    cp docs/PROMISES.md "$copy/docs"
    for folder in crates/*/specs crates/*/src crates/line_demand/proofs crates/line_mailbox/proofs crates/line_notice/proofs; do
        mkdir -p "$copy/$folder"
        cp -R "$folder/." "$copy/$folder"
    done
}

# refused WORDS FILE EDIT: with a file of the copy edited there is no page, and these words, at a line of a file, say why
refused() {
    fresh
    sed "$3" "$2" > "$copy/$2"
    status=0
    if cmp -s "$2" "$copy/$2"; then
        echo "nothing to edit by $3 in $2"
        status=1
    fi
    refused_copy "$1" $status
}

# refused_copy WORDS STATUS: the same of the copy as it stands
refused_copy() {
    status=$2
    ended=0
    of "$copy" "$copy/page.html" > "$copy/log" 2>&1 || ended=$?
    [ "$ended" -eq 1 ] || status=1
    [ ! -e "$copy/page.html" ] || status=1
    grep -q "^[a-zA-Z_0-9/.]*:[0-9][0-9]*: .*$1" "$copy/log" || status=1
    [ "$status" -eq 0 ] || cat "$copy/log"
    say "refused: $1" "$status"
}

status=0
of . build/statement.html > build/statement.told 2>&1 || status=1
cat build/statement.told
grep -q ' definitions, .* lines to believe, ' build/statement.told || status=1
[ "$(tail -n 1 build/statement.html)" = '</html>' ] || status=1
say "the page is made, and nothing that it cites is missing" $status

status=0
for call in $(sed -n 's/^pub extern "C" fn \([a-z_]*\)(.*/\1/p' crates/tumbeliko/src/lib.rt crates/drill/src/lib.rt); do
    grep -q "<section class=\"d\" id=\"$call\">" build/statement.html || status=1
done
[ -n "${call:-}" ] || status=1
say "every call is on the page" $status

fresh
status=0
of "$copy" "$copy/page.html" > "$copy/log" 2>&1 || status=1
cmp -s build/statement.html "$copy/page.html" || status=1
say "a whole copy gives the same page" $status

refused 'does not declare it' crates/sha256/specs/Sha256.antt 's/pub sha256 : /pub sha : /'
refused 'nothing of that name is declared or imported here' crates/sha256/specs/Sha256.antt '/^use .*Tables/d'
refused 'it has a type alone' crates/octets/specs/Bytes.antt '/^part a n s/d'
refused 'declares no such struct, enum or variant' crates/table/src/lib.rt 's/^pub struct Table/pub struct Tables/'
refused 'no record that is cited has such a field' crates/table/src/lib.rt 's/pub longest:/pub most:/'
refused 'it promises nothing' crates/tumbeliko/src/lib.rt '/ensures .* hash_of /d'
refused 'What is assumed' docs/PROMISES.md 's/^## What is assumed/## Assumed/'

fresh
rm "$copy/crates/octets/specs/Bytes.antt"
refused_copy 'there is no such file' 0

fresh
rm -r "$copy/crates/line_demand"
refused_copy 'the statement .* is to stand here' 0

rm -rf "$copy"
echo "$passed passed, $failed failed"
[ "$failed" -eq 0 ]
