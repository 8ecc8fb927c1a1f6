#!/bin/sh
# Runs the program octets on a file of hexadecimal lines, or on the shipped example.
exec "$(dirname "$0")/program.sh" octets stdin "$@"
