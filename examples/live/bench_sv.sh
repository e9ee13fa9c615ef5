#!/bin/sh
# Builds the bench in SystemVerilog with Verilator and runs it against a port. The log, which `rio check` reads, comes on
# standard output, and a line on standard error says how many packets left.
#
# usage: bench_sv.sh [PROGRAM [PACKETS [FAULTS [SEED]]]]    PROGRAM: rio_port, unless it is given; PACKETS: 300 each way;
#                                                          FAULTS: 20 of 1000 characters

here=$(cd "$(dirname "$0")" && pwd)
work=$(mktemp -d) || exit 1
trap 'rm -rf "$work"' EXIT
verilator --binary --timing -Wno-fatal --Mdir "$work/made" -CFLAGS "-I$here" --top-module bench \
    "$here/bench.sv" "$here/device.v" "$here/port.c" >"$work/said" 2>&1 || { cat "$work/said" >&2; exit 1; }
"$work/made/Vbench" "+program=${1:-rio_port}" "+log=$work/log" "+packets=${2:-300}" "+faults=${3:-20}" "+seed=${4:-1}" \
    >"$work/said" || { cat "$work/said" >&2; exit 1; }
grep 'packets left' "$work/said" >&2
cat "$work/log"
