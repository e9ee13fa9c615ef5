#!/bin/sh
# Cuts a script down: leaves out lines, half of them at first and one by one at last, as long as a command answers 0 on
# what is left. Writes what is left.
#
# usage: cut.sh SCRIPT COMMAND WORD..    the command reads the script from standard input

script=$1
shift
work=$(mktemp -d) || exit 1
trap 'rm -rf "$work"' EXIT
grep -v -e '^$' -e '^#' "$script" >"$work/kept"

# wanted FILE COMMAND WORD..: the command answers 0 on this script
wanted() {
    file=$1
    shift
    "$@" <"$file" >"$work/said" 2>&1
}

if ! wanted "$work/kept" "$@"; then
    echo "cut.sh: the command does not answer 0 on the whole script" >&2
    exit 1
fi
size=$(($(wc -l <"$work/kept") / 2))
while [ "$size" -gt 0 ]; do
    # From the last line to the first, so that what names a node goes before the node.
    end=$(wc -l <"$work/kept")
    while [ "$end" -gt 0 ]; do
        first=$((end > size ? end - size + 1 : 1))
        sed "$first,${end}d" "$work/kept" >"$work/less"
        if wanted "$work/less" "$@"; then
            mv "$work/less" "$work/kept"
        fi
        end=$((first - 1))
    done
    size=$((size / 2))
done
cat "$work/kept"
