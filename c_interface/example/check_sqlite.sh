#!/bin/sh
# The bank over SQLite files: with kills and files put back the sum of the accounts stays; without the answers
# kept, or where nobody is told that a file was put back, it doesn't.
set -e
folder=$(mktemp -d)
trap 'rm -rf "$folder"' EXIT

# bank NAME [WORD]..: a run in a folder of this name; what it prints stands in `said`.
bank() {
    own="$folder/$1"
    shift
    mkdir "$own"
    build/bank_sqlite "$own" 50 500 20 "$@" > "$folder/said"
}

if bank honest; then
    echo "SQLite: $(tail -n 1 "$folder/said")"
else
    echo "SQLite: MONEY LOST OR MADE: $(tail -n 1 "$folder/said")"
    exit 1
fi
# The controls: what each shows has to be a sum that is off, or a file that is told to have diverged.
for control in forgetful untold; do
    if bank "$control" "$control"; then
        echo "SQLite, $control: the sum stayed, so that this control shows NOTHING"
        exit 1
    fi
    if ! grep -q "^sum\|^diverged" "$folder/said"; then
        echo "SQLite, $control: it came to no sum"
        exit 1
    fi
    echo "SQLite, $control: as it has to be, $(tail -n 1 "$folder/said")"
done
