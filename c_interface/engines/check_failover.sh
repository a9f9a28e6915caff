#!/bin/sh
# check_failover.sh HOME FAULTS [KINDS]: nodes that take over from one another over this home of their log
# (build/failover_HOME), with so many faults; if PROCD is set, the same with a log that is never cut, and an audit of it
# by `$PROCD log --audit`; then the controls, which have to be seen to lose.
set -e
until_lost=60
name=$1
faults=$2
kinds=${3:-ksmeqd}
folder=$(mktemp -d)
trap 'rm -rf "$folder"' EXIT
chmod 711 "$folder"

# nodes PROGRAM FAULTS KINDS [CONTROL]: a run in a folder of its own; what it prints is in `said`.
nodes() {
    own="$folder/$1$4"
    program=$1
    shift
    mkdir "$own"
    chmod 711 "$own"
    at=$1
    which=$2
    shift 2
    build/"$program"_"$name" build/bank.o "$own" 4 "$at" "${SILENCE:-400}" "$which" "$@" > "$folder/said" 2> "$folder/faults"
}

if ! nodes failover "$faults" "$kinds"; then
    echo "$name: LOST: $(cat "$folder/said" "$folder/faults")"
    exit 1
fi
echo "$name: $(cat "$folder/said")"
if [ -n "$PROCD" ]; then
    if ! nodes failover "$faults" "$kinds" uncut ||
        ! "$PROCD" log --audit "$own/log" build/bank.o engines/audited.txt > "$folder/audit"; then
        echo "$name, never cut: LOST: $(cat "$folder/said" "$folder/faults" "$folder/audit")"
        exit 1
    fi
    echo "$name, never cut: $(cat "$folder/said") $(grep '^audit' "$folder/audit")"
fi

# loses WHAT PROGRAM KINDS [CONTROL]
loses() {
    what=$1
    program=$2
    which=$3
    shift 3
    if nodes "$program" $until_lost "$which" "$@"; then
        echo "$name, $what: it lost nothing, so that this control shows NOTHING"
        exit 1
    fi
    if ! grep -q faults "$folder/said"; then
        echo "$name, $what: it didn't run: $(cat "$folder/faults")"
        exit 1
    fi
    echo "$name, $what: as it has to be, $(sed 's/.*: //' "$folder/said")"
}

loses "a home that compares nothing" unfenced ksm
loses "wires before the log" failover ksm unwritten
loses "marks before the log" failover k marks_first
