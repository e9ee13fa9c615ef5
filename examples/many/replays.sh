#!/bin/sh
# Carries out each script, and writes a line for each: the file, and the last line of what rio wrote, which tells how it
# ended.
#
# usage: replays.sh SCRIPT..    RIO: the program, rio unless it is set

rio=${RIO:-rio}
for script; do
    echo "$script" "$("$rio" replay <"$script" 2>/dev/null | tail -n 1)"
done
