#!/bin/sh
# Runs the program: the one that is ready, where it is that of the sources here, else one that is proved and built of them first.
program=$("$(dirname "$0")/tools/program") || exit
exec "$program" "$@"
