#!/bin/sh
# Builds the sender with Icarus Verilog and runs it against a port, over two named pipes.
#
# usage: sender.sh [PROGRAM]    PROGRAM: rio_port, unless it is given

program=${1:-rio_port}
here=$(cd "$(dirname "$0")" && pwd)
work=$(mktemp -d) || exit 1
trap 'rm -rf "$work"' EXIT
mkfifo "$work/to" "$work/from" || exit 1
iverilog -o "$work/bench" "$here/sender.v" "$here/sender_tb.v" || exit 1
"$program" <"$work/to" >"$work/from" &
vvp -n "$work/bench" "+to=$work/to" "+from=$work/from"
wait
