#!/bin/sh
# Fetches OpenSSL, BearSSL and ISA-L for x86-64 from Debian's packages into the folder given, and installs the emulator that can count.
# For machines that are no x86-64; there `make bench` finds the installed ones.
set -eu
to=$1
dpkg --add-architecture amd64
apt-get update
command -v qemu-x86_64 || DEBIAN_FRONTEND=noninteractive apt-get install -y --no-install-recommends qemu-user
mkdir -p "$to"
cd "$to"
apt-get download libssl-dev:amd64 libssl3:amd64 libbearssl-dev:amd64 libisal-dev:amd64 libisal2:amd64
for package in *.deb; do dpkg -x "$package" .; done
rm -f ./*.deb
touch done
