#!/bin/sh
# Builds a program (which proves it first) and runs it on a file, or on one that its crate ships.
# Usage: tools/program.sh PROGRAM SHIPPED_FILE [FILE]
set -eu
crate=$(cd "$(dirname "$0")/../crates/$1" && pwd)
file=$(realpath "${3:-$crate/$2}")
cd "$crate"
rt run </dev/null >/dev/null 2>&1 || { echo "$1: not proved; run 'rt check' in crates/$1 to see why" >&2; exit 1; }
exec "out/$1" <"$file"
