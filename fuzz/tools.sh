#!/bin/sh
# What the fuzzer needs: clang with its libFuzzer and sanitizers, from Debian's packages where they are missing.
set -eu
works() {
    printf '#include <stddef.h>\n#include <stdint.h>\nint LLVMFuzzerTestOneInput(const uint8_t *d, size_t n);\n%s\n' \
        'int LLVMFuzzerTestOneInput(const uint8_t *d, size_t n) { return d == NULL && n > 0; }' |
        clang -x c - -fsanitize=fuzzer,address,undefined -o /dev/null 2> /dev/null
}
if ! command -v clang || ! works; then
    apt-get update
    DEBIAN_FRONTEND=noninteractive apt-get install -y --no-install-recommends clang libclang-rt-dev
fi
works
