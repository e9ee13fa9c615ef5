#!/bin/sh
# Builds a device with code groups of its own with Icarus Verilog, and runs it against a port, with rio_lane between them.
#
# usage: lane.sh LANE PORT    LANE: rio_lane, PORT: rio_port

lane=$1
port=$2
here=$(cd "$(dirname "$0")" && pwd)
work=$(mktemp -d) || exit 1
trap 'rm -rf "$work"' EXIT
mkfifo "$work/to" "$work/from" || exit 1
iverilog -I "$here" -o "$work/bench" "$here/lane_device.v" "$here/lane_tb.v" || exit 1
"$lane" got <"$work/to" | "$port" | "$lane" sent >"$work/from" &
vvp -n "$work/bench" "+to=$work/to" "+from=$work/from" | tee "$work/out"
wait
tail -n 1 "$work/out" | grep -qx "held and accepted"
