#!/bin/sh
# Builds the bench in SystemVerilog by clocks with Verilator and runs it against a port. A line on standard error says how many
# packets left. Without faults the log that the port writes, which `rio check` reads, comes on standard output.
#
# usage: clocked_sv.sh [PROGRAM [PACKETS [FAULTS [SEED]]]]    PROGRAM: rio_port, unless it is given; PACKETS: 3000 each way;
#                                                             FAULTS: none of 1000 characters

here=$(cd "$(dirname "$0")" && pwd)
work=$(mktemp -d) || exit 1
trap 'rm -rf "$work"' EXIT
log=
[ "${3:-0}" -ne 0 ] || log="--log A B"
printf '#!/bin/sh\nexec %s %s --take --timeout 640 2>%s\n' "'${1:-rio_port}'" "$log" "'$work/log'" >"$work/port"
chmod +x "$work/port"
verilator --binary --timing -O3 -Wno-fatal --Mdir "$work/made" -CFLAGS "-O2 -I$here" --top-module clocked \
    "$here/clocked.sv" "$here/device.v" "$here/port.c" >"$work/said" 2>&1 || { cat "$work/said" >&2; exit 1; }
"$work/made/Vclocked" "+program=$work/port" "+packets=${2:-3000}" "+faults=${3:-0}" "+seed=${4:-1}" >"$work/said" ||
    { cat "$work/said" >&2; exit 1; }
grep 'packets left' "$work/said" >&2
cat "$work/log"
