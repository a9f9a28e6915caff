"""`run`: calls by workers, their answers and the rows."""
from procedures import BAD, FOUR, GET, MOVE, PUT, four
from .row import Row, refused, row

# Each data component has room for another number of records.
UNEQUAL = """\
dc 1 100
dc 2 100
dc 3 100
proc one 1
slot write 0 0 $0
  mov r1, 0
  call 2
  exit
end
proc two 1
slot write 1 0 $0
  mov r1, 0
  call 2
  exit
end
proc three 1
slot write 2 0 $0
  mov r1, 0
  call 2
  exit
end
call one 1
call one 2
call two 1
call two 2
call two 3
call three 1
call three 2
call three 3
call three 4
"""

UNEQUAL_ROWS = """\
call 0 committed
call 1 noroom
call 2 committed
call 3 committed
call 4 noroom
call 5 committed
call 6 committed
call 7 committed
call 8 noroom
row 0/0/1 0
row 1/0/1 0
row 1/0/2 0
row 2/0/1 0
row 2/0/2 0
row 2/0/3 0
"""

EIGHT_MOVES = """\
first put 5 100
call move 5 5 1
call move 5 5 1
call move 5 5 1
call move 5 5 1
call move 5 5 1
call move 5 5 1
call move 5 5 1
call move 5 5 1
"""

EIGHT_COMMITTED = """\
first 0 committed
call 0 committed
call 1 committed
call 2 committed
call 3 committed
call 4 committed
call 5 committed
call 6 committed
call 7 committed
row 0/0/5 108
"""

EVERY_CALL = """\
first put 5 100
call put 6 1
call get 6
call put 5 1
call bad 5
call get
call get 5
call get 5
call put 5 2
call get 5
call get 6
"""

EVERY_ANSWERED = """\
first 0 committed
call 0 noroom
call 1 aborted 1
call 2 aborted 1
call 3 aborted 5
call 4 refused B5 ArgumentCount
call 5 committed
call 6 committed
call 7 in doubt 10
call 8 blocked 0/0/5
call 9 in doubt 11
row 0/0/5 100
"""

# The same calls, each told as it is answered, by a component whose operations are spent.
EVERY_TOLD = """\
told 0 noroom
told 1 aborted 1
told 2 aborted 1
told 3 aborted 5
told 4 refused B5 ArgumentCount
told 5 committed
told 6 committed
told 7 in doubt 10
told 8 blocked 0/0/5
told 9 in doubt 11
full dc 0 9 operations
"""

# What is done, and what counts as failed where that is asked for; calls of the first list don't.
STRICT = [
    ("call put 5 1\ncall get 6\ncall bad 5\n", "call 0 committed\ncall 1 aborted 1\ncall 2 aborted 5\nrow 0/0/5 1\n", 0),
    ("first put 5 1\nfirst put 6 1\n", "first 0 committed\nfirst 1 noroom\nrow 0/0/5 1\n", 0),
    ("call put 5 1\ncall put 6 1\n", "call 0 committed\ncall 1 noroom\nrow 0/0/5 1\n", 1),
    ("call get\n", "call 0 refused B5 ArgumentCount\n", 1),
]

# Each call that committed with what its slots hold, the last with no record: it deletes through one slot what it read through the other.
RESULTS = """\
proc gone 1
slot read 0 0 $0
slot write 0 0 $0
mov r1, 0
call 1
jeq r0, 0, +2
stdw [r0+8], 255
mov r0, 0
mov r1, 1
call 4
exit
end
first put 5 100
first put 6 1
call get 5
call move 5 6 10
call get 7
call bad 6
call gone 6
"""

RESULTS_PRINTED = f"""\
first 0 committed
first 1 committed
call 0 committed
result 0 0 100
call 1 committed
result 1 0 90
result 1 1 11
call 2 aborted 1
call 3 aborted 5
call 4 committed
result 4 0 x0b{7 * "00"}ff{55 * "00"}
row 0/0/5 90
"""

# One worker answers the first list: of each five calls the fourth, which wants a record that the third has, comes before the
# fifth, which makes the other one. Several workers answer thousands of them the other way about.
FIVES = range(0, 15_000, 3)
FIRST = f"dc {3 * len(FIVES)} {16 * len(FIVES)}\n" + PUT + MOVE + "".join(
    f"first put {key} 1\nfirst put {key + 1} 1\nfirst move {key} {key + 1} 1\nfirst move {key + 1} {key + 2} 1\nfirst put {key + 2} 7\n"
    for key in FIVES)
FIRST_ANSWERED = "".join(
    f"first {5 * place + call} {answer}\n"
    for place in range(len(FIVES))
    for call, answer in enumerate(["committed", "committed", "committed", "aborted 1", "committed"])
) + "".join(f"row 0/0/{key} 0\nrow 0/0/{key + 1} 2\nrow 0/0/{key + 2} 7\n" for key in FIVES)

# Components 0 and 2 are joined by a procedure, 1 and 3 are alone, and nobody calls what is of 3. One procedure has no slot, which is of
# component 0's partition.
APART = """\
dc 9 90
dc 1 90
dc 9 90
dc 9 90
proc both 1
slot write 2 0 $0
slot write 0 0 $0
  mov r1, 0
  call 2
  mov r1, 1
  call 2
  exit
end
proc alone 1
slot write 1 0 $0
  mov r1, 0
  call 2
  exit
end
proc other 1
slot write 3 0 $0
  mov r1, 0
  call 2
  exit
end
proc none 0
  mov r0, 7
  exit
end
first alone 5
first both 5
call alone 6
call both 6
call none
call alone 5
call both 5
call both 1
"""

APART_PRINTED = """\
first 0 committed
first 1 committed
call 0 noroom
call 1 committed
call 2 aborted 7
call 3 aborted 1
call 4 aborted 1
call 5 committed
row 0/0/1 0
row 0/0/5 0
row 0/0/6 0
row 1/0/5 0
row 2/0/1 0
row 2/0/5 0
row 2/0/6 0
"""

# Each partition with calls has a log of its own, by the order of their first components.
APART_AUDITS = """\
partition 0
audit ok ended 5 open 0
partition 1
audit ok ended 3 open 0
"""

# A procedure that joins all: one partition has all calls.
JOINED = """\
proc all 1
slot read 0 0 $0
slot read 1 0 $0
slot read 2 0 $0
slot read 3 0 $0
  mov r0, 0
  exit
end
"""

# What is of all calls, or of one log of all, goes with no partitions.
BESIDE_PARTITIONS = ["--stats", "--results", "--tell", "--metrics m", "--trace t", "--log l --checkpoint", "--log l --checkpoint-over 1", "--log l --stats"]

# Words, what stands behind the four procedures, and why that is refused.
REFUSED = [
    ("run --workers 65 -", "call get 1\n", "G1 Workers"),
    ("run --workers 0 -", "call get 1\n", "G1 Workers"),
    # the tries are looked at before the workers
    ("run --workers 0 --tries 0 -", "call get 1\n", "G2 Tries"),
    ("run --tries 1001 -", "call get 1\n", "G2 Tries"),
    # what only worlds know
    ("run -", "checkpoint 0\n", "line 61 F1 BadLine"),
    ("run -", "crash 0\n", "line 61 F1 BadLine"),
    ("run -", "call get 1\nfirst get 1\n", "line 62 F9 Order"),
    ("run --partitions --workers 65 -", "call get 1\n", "G1 Workers"),
    ("run --partitions --workers 0 --tries 0 -", "call get 1\n", "G2 Tries"),
    ("run --partitions -", "call get 1\nfirst get 1\n", "line 62 F9 Order"),
]


def rows(_program):
    """All rows."""
    # each component has its own rows, in its place
    yield row("run --workers 1 -", UNEQUAL, UNEQUAL_ROWS)
    # both buffers are of one record: the last write stands
    both = "first put 5 100\ncall move 5 5 10\n"
    yield row("run -", FOUR + both, "first 0 committed\ncall 0 committed\nrow 0/0/5 110\n")
    for words in ["--workers 1", "--workers 2 --tries 1", "--workers 64 --tries 1000"]:
        yield row(f"run {words} -", FOUR + EIGHT_MOVES, EIGHT_COMMITTED)
    # nine calls have ended, and their answers, lists and rows agree
    yield row("run --audit -", FOUR + EIGHT_MOVES, EIGHT_COMMITTED + "audit ok ended 9 open 0\n")
    # one record has room, and nine operations
    every = "dc 1 9\n" + PUT + GET + BAD + EVERY_CALL
    full = b"full dc 0 9 operations\n"
    for words in ["", "--partitions ", "--audit --partitions "]:
        audit = "partition 0\naudit ok ended 7 open 2\n" if "audit" in words else ""
        yield Row(f"run {words}--workers 1 -".split(), every.encode(), (EVERY_ANSWERED + audit).encode(), 0, full)
        yield Row(f"run --strict {words}--workers 1 -".split(), every.encode(), (EVERY_ANSWERED + audit).encode(), 1, full)
    yield Row("run --tell --workers 1 -".split(), every.encode(), EVERY_ANSWERED.encode(), 0, EVERY_TOLD.encode())
    # each that is full, in their order: of two partitions, and one that no call reaches
    apart = "dc 1 1\ndc 1 9\ndc 1 0\n" + GET + GET.replace("proc get", "proc other").replace("slot read 0", "slot read 1") + "call get 5\ncall other 5\n"
    for words in ["", "--partitions "]:
        told = b"full dc 0 1 operations\nfull dc 2 0 operations\n"
        yield Row(f"run {words}-".split(), apart.encode(), b"call 0 aborted 1\ncall 1 aborted 1\n", 0, told)
    for calls, answered, status in STRICT:
        for words in ["", "--partitions "]:
            yield row(f"run --strict {words}--workers 1 -", four("dc 1 99\n") + calls, answered, status)
    yield row("run --results --workers 1 -", FOUR + RESULTS, RESULTS_PRINTED)
    yield row("run --results --audit --workers 1 -", FOUR + "call put 5 7\n", "call 0 committed\nresult 0 0 7\nrow 0/0/5 7\naudit ok ended 1 open 0\n")
    yield row("run --workers 64 -", FIRST, FIRST_ANSWERED)
    yield from (refused(words, FOUR + rest, why) for words, rest, why in REFUSED)
    joined = APART.replace("first alone", JOINED + "first alone", 1)
    for words in ["", "--partitions --workers 1 ", "--partitions ", "--partitions --workers 64 "]:
        yield row(f"run {words}-", APART, APART_PRINTED)
        yield row(f"run {words}-", joined, APART_PRINTED)
        yield row(f"run {words}-", FOUR + EIGHT_MOVES, EIGHT_COMMITTED)
        yield row(f"run {words}-", "dc 1 1\nproc a 0\nmov r0, 0\nexit\nend\n", "")
    yield row("run --partitions --audit -", APART, APART_PRINTED + APART_AUDITS)
    yield row("run --partitions --audit -", joined, APART_PRINTED + "partition 0\naudit ok ended 8 open 0\n")
    yield from (Row(f"run --partitions {more} -".split(), APART.encode(), b"", 2, b"error: run takes --partitions") for more in BESIDE_PARTITIONS)
    # a script is refused before a call is made
    yield refused("run -", "dc 1 1\nproc a 0\nexit\nend\ncall a\n", "line 4 F7 Verify V5 EmptyRegister slot 0")
    yield refused("run -", "dc 1 1\nproc a 0\nmov r0, 0\nexit\nend\ncall b\n", "line 6 F4 NameUnknown")
