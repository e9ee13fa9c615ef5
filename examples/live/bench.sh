#!/bin/sh
# Builds the bench in plain Verilog with Icarus Verilog and runs it against a port, over two named pipes. The log, which
# `rio check` reads, comes on standard output, and a line on standard error says how many packets left.
#
# usage: bench.sh [PROGRAM [PACKETS [FAULTS [SEED]]]]    PROGRAM: rio_port, unless it is given; PACKETS: 300 each way;
#                                                       FAULTS: 20 of 1000 characters

program=${1:-rio_port}
here=$(cd "$(dirname "$0")" && pwd)
work=$(mktemp -d) || exit 1
trap 'rm -rf "$work"' EXIT
mkfifo "$work/to" "$work/from" || exit 1
iverilog -o "$work/bench" "$here/bench_tb.v" "$here/device.v" || exit 1
"$program" <"$work/to" >"$work/from" &
vvp -n "$work/bench" "+to=$work/to" "+from=$work/from" "+log=$work/log" "+packets=${2:-300}" "+faults=${3:-20}" \
    "+seed=${4:-1}" >&2
wait
cat "$work/log"
