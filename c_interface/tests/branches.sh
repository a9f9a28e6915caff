#!/bin/sh
# Compiles branches.c in each way that docs/PROCEDURES.md names, and has each procedure accepted; the control has to be refused.
#
# usage: branches.sh FOLDER: of what `make check` built
set -e
skeleton=$1/mz_skeleton
here=$(cd "$(dirname "$0")" && pwd)
place=$(mktemp -d)
trap 'rm -rf "$place"' EXIT

# compiled WORD..: as these words of clang have it
compiled() {
    "${CLANG:-clang}" -target bpf -g -I"$here/.." "$@" -c "$here/branches.c" -o "$place/branches.o"
}

for level in 1 2 s; do
    for cpu in v1 v2 v3; do
        compiled -O$level -mcpu=$cpu
        "$skeleton" "$place/branches.o" > "$place/said" || { echo "branches: REFUSED with -O$level -mcpu=$cpu"; exit 1; }
    done
done
compiled -O2 -mcpu=v2 -DCONTROL
if "$skeleton" "$place/branches.o" > "$place/said" 2> "$place/told" || ! grep -q SlotUnknown "$place/told"; then
    echo "branches: the control shows NOTHING: $(cat "$place/told")"
    exit 1
fi
echo "branches: a call in each stays a call of its own"
