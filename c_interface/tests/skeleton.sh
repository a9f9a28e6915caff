#!/bin/sh
# What mz_skeleton calls functions, arguments and access slots, and what it refuses, by name and place: status, standard error, and
# nothing printed.
#
# usage: skeleton.sh FOLDER: of what `make check` built
set -e
built=$(cd "$1" && pwd)
clang=${CLANG:-clang}
here=$(cd "$(dirname "$0")/.." && pwd)
place=$(mktemp -d)
trap 'rm -rf "$place"' EXIT
cd "$place"
wrong=0

# refuses STATUS MESSAGE WORD..
refuses() {
    wanted=$1 message=$2 status=0
    shift 2
    "$built/mz_skeleton" "$@" > said 2> told || status=$?
    if [ "$status" -ne "$wanted" ] || [ -s said ] || [ "$(cat told)" != "mz_skeleton: $message" ]; then
        echo "skeleton: NOT so of $*: status $status, $(wc -c < said) bytes, $(cat told)"
        wrong=1
    fi
}

# compiled NAME [WORD..]: the procedures of standard input as NAME.o
compiled() {
    object=$1.o
    shift
    { echo '#include "mazzulpe_procedure.h"'; cat; } | "$clang" -target bpf -O2 -mcpu=v2 "$@" -I"$here" -x c -c - -o "$object"
}

grep -E '^static inline mz_code named_|^/\* As mz_result' "$built/named.h" | diff "$here/tests/named.expected" - || wrong=1
grep -E '^pub (fn|const) |^/// As \[`Tc::result' "$built/named.rs" | diff "$here/tests/named_rust.expected" - || wrong=1

echo 'no object' > text.o
: > empty.o
refuses 1 'text.o: not a whole object file with procedures for BPF' text.o
refuses 1 'empty.o: not a whole object file with procedures for BPF' empty.o
refuses 3 'cannot read there.o' there.o
refuses 3 'cannot read .' . folder
another='no name in C or Rust, or the library'"'"'s: `mz_skeleton FILE NAME` says another one'
refuses 2 "$another" 2nd.o
refuses 2 "$another" empty.o mz
refuses 2 "$another" --rust mazzulpe.o
compiled none < /dev/null
refuses 1 'none.o: no procedure in it (a section procedure/NAME)' none.o
compiled one << 'C'
ACCESSES(good, TAKES(1), WRITES(0, 0, ARGUMENT(0)))
PROCEDURE(good) { return record_delete(0); }
ACCESSES(get, TAKES(1), READS(0, 0, ARGUMENT(0)))
PROCEDURE(get) { return record_read(0)[0]; }
C
refuses 1 'one.o: get V10 MaybeNull slot 2' one.o
compiled slots << 'C'
ACCESSES(far, TAKES(1), READS(0, 0, ARGUMENT(0)), READS(65535, 0, ARGUMENT(0)))
PROCEDURE(far) { return 0; }
C
refuses 1 'slots.o: far P2 DcUnknown access slot 1' slots.o
compiled bare << 'C'
PROCEDURE(bare) { return 0; }
C
refuses 1 'bare.o: bare has no access slots in the file (ACCESSES)' bare.o
for name in open dcs DCS; do
    compiled own << C
ACCESSES($name, TAKES(0))
PROCEDURE($name) { return 0; }
C
    [ $name = DCS ] || refuses 1 "own.o: $name is a name of the skeleton itself" own.o
    [ $name = dcs ] || refuses 1 "own.o: $name is a name of the skeleton itself" --rust own.o
done
# What would have one name: with the blocked one of another procedure, an access slot with a procedure, with another procedure's and
# with its own procedure's; with its call by a pool, and what that held; and where a word has _ behind it.
compiled own << 'C'
ACCESSES(move, TAKES(0))
PROCEDURE(move) { return 0; }
ACCESSES(move_blocked, TAKES(0))
PROCEDURE(move_blocked) { return 1; }
C
refuses 1 'own.o: move_blocked is called own_move_blocked, as another function is' own.o
refuses 1 'own.o: move_blocked is called move_blocked, as another function is' --rust own.o
compiled own -g << 'C'
ACCESSES(move_from, TAKES(0))
PROCEDURE(move_from) { return 0; }
ACCESSES(move, TAKES(2), WRITES(0, 0, ARGUMENT(1)), WRITES(0, 0, ARGUMENT(0)))
PROCEDURE_OF(move, from, to) { return 1; }
C
refuses 1 'own.o: move access slot 1 is called other_move_from, as another function is' own.o other
refuses 1 'own.o: move access slot 1 is called move_from, as another function is' --rust own.o
compiled own -g << 'C'
ACCESSES(pay, TAKES(1), READS(0, 0, ARGUMENT(0)))
PROCEDURE_OF(pay, in_all) { return 0; }
ACCESSES(pay_in, TAKES(2), READS(0, 0, ARGUMENT(0)), READS(0, 0, ARGUMENT(1)))
PROCEDURE_OF(pay_in, here, all) { return 1; }
C
refuses 1 'own.o: pay_in access slot 1 is called own_pay_in_all, as another function is' own.o
compiled own -g << 'C'
ACCESSES(move, TAKES(1), WRITES(0, 0, ARGUMENT(0)))
PROCEDURE_OF(move, call) { return 0; }
C
refuses 1 'own.o: move access slot 0 is called own_move_call, as another function is' own.o
compiled own -g << 'C'
ACCESSES(move, TAKES(1), WRITES(0, 0, ARGUMENT(0)))
PROCEDURE(move) { return 0; }
ACCESSES(move_held, TAKES(0))
PROCEDURE(move_held) { return 0; }
C
refuses 1 'own.o: move_held is called own_move_held, as another function is' own.o
compiled own -g << 'C'
ACCESSES(many, TAKES(2), READS(0, 2, ARGUMENT(0)), READS(0, 1, ARGUMENT(0)), READS(0, 0, ARGUMENT(1)))
PROCEDURE_OF(many, key, key_1) { return 0; }
C
refuses 1 'own.o: many access slot 1 is called own_many_key_1, as another function is' own.o
compiled static << 'C'
ACCESSES(cast, TAKES(0))
PROCEDURE(cast) { return 0; }
ACCESSES(cast_, TAKES(0))
PROCEDURE(cast_) { return 1; }
ACCESSES(move, TAKES(0))
PROCEDURE(move) { return 2; }
ACCESSES(move_, TAKES(0))
PROCEDURE(move_) { return 3; }
C
refuses 1 'static.o: cast_ is called static_cast_, as another function is' static.o
refuses 1 'static.o: move_ is called move_, as another function is' --rust static.o
sed 's/procedure\/far/procedure\/f\x1b-/; s/accesses\/far/accesses\/f\x1b-/' slots.o > odd.o
sed -i 's/\xff\xff\x00\x00\x02\x00/\x00\x00\x00\x00\x02\x00/' odd.o
refuses 1 'odd.o: f?- is no name in C or Rust' odd.o
for rust in '' --rust; do
    status=0
    "$built/mz_skeleton" $rust "$built/named.o" > /dev/full 2> told || status=$?
    [ "$status" -eq 3 ] && [ "$(cat told)" = 'mz_skeleton: cannot write' ] || { echo "skeleton: NOT so of a full disk: $status"; wrong=1; }
done
# Each length of a file that is cut: refused, or with fewer sections behind what is loaded.
size=$(wc -c < "$built/bank.o")
for length in $(seq 0 "${STEP:-61}" "$((size - 1))"); do
    head -c "$length" "$built/bank.o" > cut.o
    refuses 1 'cut.o: not a whole object file with procedures for BPF' cut.o
done
[ "$wrong" -eq 0 ] && echo "skeleton: names of functions, arguments and slots; what isn't such a file is refused by name and place"
exit "$wrong"
