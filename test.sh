#!/bin/sh
# All tests. `rt ci` proves everything from nothing, tries each must-fail edit, which the prover must refuse, and runs all tests and
# programs. checks/ has what it cannot do: the programs as they are built, and memory that is refused. The last line is
# 'N passed, 0 failed'.
set -eu
cd "$(dirname "$0")"
# One process for each crate or edit: several for one crate take half as much of the processor again, and end hardly sooner. On three or four
# processors one fewer at once: they share the caches, and each further one slows the others. Where there are more processors, or less memory, `rt`
# chooses by itself.
cores=$(getconf _NPROCESSORS_ONLN)
gigabytes=$(awk '/^MemAvailable:/ { print int($2 / 1048576) }' /proc/meminfo 2> /dev/null || echo 0)
if [ "$cores" -le 4 ] && [ "$gigabytes" -ge $((5 * cores)) ]; then
    at_once=$cores
    [ "$cores" -lt 3 ] || at_once=$((cores - 1))
    export RT_JOBS="${RT_JOBS-$at_once}"
fi
# The prover's memory goes back to the system at the end of a process, and not piece by piece: else it takes nearly every second page anew.
export MIMALLOC_PURGE_DELAY="${MIMALLOC_PURGE_DELAY--1}"
rt ci
python3 -B checks/run.py
