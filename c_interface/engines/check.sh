#!/bin/sh
# check.sh NAME KILLS [CONTROL]..: the bank over this engine (build/killed_NAME) with so many SIGKILLs of its client, of its
# servers and of both, and an outage of OUTAGE seconds; then each control, which has to be seen to lose: at the first loss that
# is seen it ends.
set -e
until_lost=100
name=$1
kills=$2
shift 2
folder=$(mktemp -d)
trap 'rm -rf "$folder"' EXIT
chmod 711 "$folder"

# bank WHO KILLS [CONTROL]: a run in a folder of its own; what it prints stands in `said`. Where both are killed 64 calls are open.
bank() {
    own="$folder/$1$3"
    mkdir "$own"
    calls=4
    test "$1" = both && calls=64
    build/killed_"$name" build/bank.o "$own" $calls "$@" > "$folder/said" 2> "$folder/faults"
}

for who in client servers both; do
    if ! bank $who "$kills"; then
        echo "$name, $who: MONEY LOST OR MADE: $(cat "$folder/said" "$folder/faults")"
        exit 1
    fi
    echo "$name, $who: $(cat "$folder/said")"
done
if ! bank outage "${OUTAGE:-1}"; then
    echo "$name, outage: MONEY LOST OR MADE: $(cat "$folder/said" "$folder/faults")"
    exit 1
fi
echo "$name, outage of ${OUTAGE:-1} s: $(cat "$folder/said")"
for control in "$@"; do
    who=both
    test "$control" = unwritten && who=client
    if bank $who $until_lost "$control"; then
        echo "$name, $control: it lost nothing, so that this control shows NOTHING"
        exit 1
    fi
    if ! grep -q 'kills' "$folder/said"; then
        echo "$name, $control: it didn't run: $(cat "$folder/faults")"
        exit 1
    fi
    echo "$name, $control: as it has to be, $(sed 's/.*: //' "$folder/said")"
done
