#!/bin/sh
# Plays a script of events on the program scenario, or the shipped one of a call each way.
exec "$(dirname "$0")/program.sh" scenario data/up_and_down.txt "$@"
