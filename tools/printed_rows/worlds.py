"""`world`: steps and what is printed for them."""
from procedures import four
from .row import events, row

# Steps by which a put of 100 into record 5 is committed, and what is printed for them.
PUT_5 = (
    """\
admit put 5 100
ask 1
perform 0
take 0
ask 1
end 1
""",
    """\
admitted 1
sent 0 number 1 insert 0/0/5 100 low 0
reply 0 number 1 done
took number 1
over 1
ended 1 committed at 3
""",
)

# The events of that put.
PUT_5_LOGGED = (
    "0102000000000000010000000000000000000000000000000000000000000000050000000000000064",
    "020200000000000001000000000000000100000000000000050000000000000064",
    "0303000000000000010000000000000001",
    "050100000000000001",
)

# The data component, the steps, what is printed for them, and the status.
WORLDS = [
    (
        "dc 4 100\n",
        "admit get\nadmit get 5 6\n",
        "illegal I1 Refused B5 ArgumentCount\nillegal I1 Refused B5 ArgumentCount\n",
        1,
    ),
    (
        "dc 4 100\n",
        """\
admit get 5
admit get 5
admit put 5 1
admit put 6 1
""",
        """\
admitted 1
admitted 2
illegal I1 Refused B1 Busy 0/0/5 holder 1
admitted 3
""",
        1,
    ),
    (
        "dc 4 100\n",
        """\
ask 1
admit put 5 1
end 1
resend 1
undo 1
ask 1
ask 1
end 1
undo 1
resend 1
perform 2
take 0
perform 0
forge 1 value 7
take 1
forge 2 done
take 2
restart 1
take 0
take 0
end 1
end 1
""",
        """\
illegal I2 NoTxn
admitted 1
illegal I5 NotOver
illegal I6 NothingOpen
illegal I4 Running
sent 0 number 1 insert 0/0/5 1 low 0
illegal I3 Waits 1
illegal I5 NotOver
illegal I3 Waits 1
sent 1 number 1 insert 0/0/5 1 low 0
illegal I7 NoCopy
illegal I8 NoReply
reply 0 number 1 done
forged 1
illegal I9 Stranger
forged 2
illegal I9 Stranger
illegal I10 NoDc
took number 1
illegal I9 Stranger
ended 1 committed at 3
illegal I2 NoTxn
row 0/0/5 1
""",
        1,
    ),
    (
        "dc 1 100\n",
        """\
proc drop 1
slot write 0 0 $0
  mov r1, 0
  call 4
  mov r0, 5
  exit
end
admit put 5 100
ask 1
perform 0
take 0
ask 1
end 1
admit drop 5
ask 2
perform 1
take 1
ask 2
admit put 6 1
ask 3
perform 2
take 2
ask 3
end 3
undo 2
perform 3
take 3
undo 2
perform 4
take 4
undo 2
perform 5
take 5
undo 2
perform 6
take 6
undo 2
end 2
""",
        """\
admitted 1
sent 0 number 1 insert 0/0/5 100 low 0
reply 0 number 1 done
took number 1
over 1
ended 1 committed at 3
admitted 2
sent 1 number 2 delete 0/0/5 low 1
reply 1 number 2 done was 100
took number 2
undoing 2
admitted 3
sent 2 number 3 insert 0/0/6 1 low 2
reply 2 number 3 done
took number 3
over 3
ended 3 committed at 10
sent 3 number 4 insert 0/0/5 100 low 3
reply 3 number 4 noroom
took number 4
sent 4 number 5 insert 0/0/5 100 low 4
reply 4 number 5 noroom
took number 5
sent 5 number 6 insert 0/0/5 100 low 5
reply 5 number 6 noroom
took number 6
sent 6 number 7 insert 0/0/5 100 low 6
reply 6 number 7 noroom
took number 7
stuck 2 number 7
illegal I5 NotOver
row 0/0/6 1
""",
        1,
    ),
]

# The same behind a put.
BEHIND_A_PUT = [
    (
        "dc 1 100\n",
        """\
admit put 6 1
ask 2
perform 1
take 1
ask 2
end 2
""",
        """\
admitted 2
sent 1 number 2 insert 0/0/6 1 low 1
reply 1 number 2 noroom
took number 2
over 2
ended 2 noroom at 7
row 0/0/5 100
""",
        0,
    ),
    (
        "dc 4 100\n",
        """\
perform 0
admit get 5
ask 2
perform 1
perform 0
take 3
""",
        """\
reply 1 number 1 done
admitted 2
sent 1 number 2 read 0/0/5 low 1
reply 2 number 2 value 100
reply 3 number 1 old
illegal I9 Stranger
row 0/0/5 100
""",
        1,
    ),
    (
        "dc 4 1\n",
        """\
admit put 6 1
ask 2
perform 1
perform 0
""",
        """\
admitted 2
sent 1 number 2 insert 0/0/6 1 low 1
silent
reply 1 number 1 old
row 0/0/5 100
""",
        0,
    ),
]

# Steps behind a put, and what is printed for them with the log.
LOGS = [
    (
        """\
admit get 5
ask 2
perform 1
take 1
end 2
""",
        """\
admitted 2
sent 1 number 2 read 0/0/5 low 1
reply 1 number 2 value 100
took number 2
ended 2 committed at 7
row 0/0/5 100
"""
        + events(
            *PUT_5_LOGGED,
            "010100000000000002000000000000000100000000000000000000000000000005",
            "02010000000000000200000000000000020000000000000005",
            "030100000000000002000000000000000200000000000000000000000000000064",
            "050100000000000002",
        ),
        0,
    ),
    (
        """\
admit bad 5
ask 2
perform 1
take 1
ask 2
perform 2
take 2
ask 2
undo 2
perform 3
take 3
ask 2
end 2
""",
        """\
admitted 2
sent 1 number 2 read 0/0/5 low 1
reply 1 number 2 value 100
took number 2
sent 2 number 3 update 0/0/5 7 low 2
reply 2 number 3 done was 100
took number 3
undoing 2
sent 3 number 4 update 0/0/5 100 low 3
reply 3 number 4 done was 7
took number 4
over 2
ended 2 aborted 5 at 11
row 0/0/5 100
"""
        + events(
            *PUT_5_LOGGED,
            "010100000000000002000000000000000200000000000000000000000000000005",
            "02010000000000000200000000000000020000000000000005",
            "030100000000000002000000000000000200000000000000000000000000000064",
            "020300000000000002000000000000000300000000000000050000000000000007",
            "030400000000000002000000000000000300000000000000000000000000000064",
            "040300000000000002000000000000000400000000000000050000000000000064",
            "030400000000000002000000000000000400000000000000000000000000000007",
            "0502000000000000020000000000000005",
        ),
        0,
    ),
]

# What may not stand behind the four procedures, and why.
MISPLACED = [
    ("first put 5 1\n", "refused line 61 F1 BadLine\n"),
    ("crash\n", "refused line 61 F1 BadLine\n"),
    ("crash all\n", "refused line 61 F2 BadNumber\n"),
    (
        """\
proc get 0
  mov r0, 0
  exit
end
""",
        "refused line 61 F3 NameTaken\n",
    ),
    (
        "ask 1\nadmit nobody 5\n",
        "refused line 62 F4 NameUnknown\n",
    ),
]

# Scripts whose procedure isn't accepted.
REFUSED = [
    (
        "dc 4 100\nproc a 0\nmov r0, r2\nexit\nend\n",
        "refused line 5 F7 Verify V5 EmptyRegister slot 0\n",
    ),
    # a procedure that is refused stands before what is wrong further down
    (
        "dc 1 1\nproc a 0\nexit\nend\nproc b 0\nfoo\n",
        "refused line 4 F7 Verify V5 EmptyRegister slot 0\n",
    ),
]


def behind_a_put(words, dc, steps, out, status):
    """A row of steps behind a put that is committed."""
    put, printed = PUT_5
    return row(words, four(dc) + put + steps, printed + out, status)


def rows(_program):
    """All rows."""
    yield from (row("world -", four(dc) + steps, out, status) for dc, steps, out, status in WORLDS)
    yield from (behind_a_put("world -", *it) for it in BEHIND_A_PUT)
    yield from (behind_a_put("world --log -", "dc 4 100\n", *it) for it in LOGS)
    yield from (row("world -", four("dc 4 100\n") + rest, out, 1) for rest, out in MISPLACED)
    yield from (row("world -", script, out, 1) for script, out in REFUSED)
