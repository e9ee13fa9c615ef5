#!/bin/sh
# Writes what rio_view reads: the set-up lines of a script, a line ---, and the trace of the script.
#
# usage: sh examples/traced.sh SCRIPT | rio_view ladder > LADDER.svg
#   rio must be on the path

grep -E '^(endpoint|switch|link|buffers|route|default|lock|large|credits) ' "$1"
echo ---
rio replay < "$1"
