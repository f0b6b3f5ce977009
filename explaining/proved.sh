#!/bin/sh
# Runs a proved program on standard input as ./repair does; or makes the programs that are missing or older than the crates.
# usage: explaining/proved.sh repair | layers | --build
set -eu
me=explain
root=$(dirname "$(dirname "$(readlink -f "$0")")")
. "$root/tests/build.sh"

case "$# ${1:-}" in
'1 --build')
    build_program repair
    build_program layers
    ;;
'1 repair' | '1 layers') exec "$root/target/bin/$1" ;;
*) die "usage: explaining/proved.sh repair | layers | --build" ;;
esac
