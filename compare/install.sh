#!/bin/sh
# Installs what the comparison and the C example need beside the Rattle kit, from Debian: a C compiler and make, and
# where this machine isn't x86-64 the cross compiler for it and the emulator that runs what it makes. Needs root.
set -eu
packages="gcc libc6-dev make"
[ "$(uname -m)" = x86_64 ] || packages="$packages gcc-x86-64-linux-gnu libc6-dev-amd64-cross qemu-user"
apt-get update
# shellcheck disable=SC2086
apt-get install -y --no-install-recommends $packages
