#!/bin/sh
# Carries out the soak of each number, and writes a line for each: the number, the status of rio, and what it wrote.
#
# usage: soaks.sh NUMBER..    RIO: the program, rio unless it is set

rio=${RIO:-rio}
for number; do
    counts=$("$rio" soak "$number" 2>/dev/null)
    status=$?
    # shellcheck disable=SC2086  # the lines become words of one line
    echo "$number" "$status" $counts
done
