#!/bin/sh
# What the tests in C need: gcc, and where the machine is no x86-64 a compiler for x86-64 and an emulator, from Debian's packages.
set -eu
if [ "$(uname -m)" = x86_64 ]; then
    command -v gcc
    echo "1 passed, 0 failed"
    exit 0
fi
if ! command -v x86_64-linux-gnu-gcc || ! command -v qemu-x86_64-static; then
    apt-get update
    DEBIAN_FRONTEND=noninteractive apt-get install -y --no-install-recommends gcc-x86-64-linux-gnu libc6-dev-amd64-cross qemu-user-static
fi
command -v x86_64-linux-gnu-gcc
command -v qemu-x86_64-static
echo "1 passed, 0 failed"
