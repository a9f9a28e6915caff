"""`world`: restarts, redo, crashes of the transaction component, and audits."""
from procedures import four
from .row import events, row
from .worlds import behind_a_put

# Crashes of the transaction component, what is printed for them, and the status.
CRASHES = [
    # a wire tells of its number, a reply of no answer: an answer and an end may be lost
    (
        """\
crash 0
crash 1
admit put 5 100
ask 1
crash 1
crash 2
resend 1
perform 0
perform 1
take 0
crash 2
take 1
ask 1
end 1
crash 3
end 1
crash 5
crash 0
""",
        """\
crashed 0 open 0
illegal I17 NotWritten
admitted 1
sent 0 number 1 insert 0/0/5 100 low 0
illegal I17 NotWritten
crashed 2 open 1
sent 1 number 1 insert 0/0/5 100 low 0
reply 0 number 1 done
reply 1 number 1 done
took number 1
crashed 2 open 1
took number 1
over 1
ended 1 committed at 3
crashed 3 open 1
ended 1 committed at 3
illegal I17 NotWritten
illegal I17 NotWritten
row 0/0/5 100
""",
        1,
    ),
    # a mark tells of the answers up to it, and a redo's wire of its own; a redo begins anew
    (
        """\
admit put 5 100
ask 1
perform 0
take 0
end 1
admit put 6 7
ask 2
crash 2
crash 5
crash 6
restart 0
tell 0
redo 0
crash 6
redo 0
perform 3
take 1
crash 6
redo 0
perform 2
take 2
redo 0
resend 2
end 2
""",
        """\
admitted 1
sent 0 number 1 insert 0/0/5 100 low 0
reply 0 number 1 done
took number 1
ended 1 committed at 3
admitted 2
sent 1 number 2 insert 0/0/6 7 low 1
illegal I17 NotWritten
illegal I17 NotWritten
crashed 6 open 1
restarted 0
told 0 incarnation 1 mark 0
redo 2 number 1 insert 0/0/5 100
crashed 6 open 1
redo 3 number 1 insert 0/0/5 100
reply 1 number 1 done
redone number 1
crashed 6 open 1
redo 4 number 1 insert 0/0/5 100
reply 2 number 1 done
redone number 1
up 0
sent 5 number 2 insert 0/0/6 7 low 1
illegal I5 NotOver
row 0/0/5 100
""",
        1,
    ),
]

# Steps over a data component that loses what came after its checkpoint, what is printed for them,
# and the status.
RESTARTS = [
    (
        """\
admit put 5 100
ask 1
perform 0
restart 0
perform 0
take 0
ask 1
end 1
tell 0
redo 0
perform 1
take 1
redo 0
""",
        """\
admitted 1
sent 0 number 1 insert 0/0/5 100 low 0
reply 0 number 1 done
restarted 0
silent
took number 1
over 1
ended 1 committed at 3
told 0 incarnation 1 mark 0
redo 1 number 1 insert 0/0/5 100
reply 1 number 1 done
redone number 1
up 0
row 0/0/5 100
""",
        0,
    ),
    (
        """\
tell 0
redo 0
checkpoint 4
restart 0
tell 0
tell 0
admit put 5 1
ask 1
resend 1
redo 0
resend 1
perform 0
take 0
end 1
""",
        """\
illegal I14 NoNews
illegal I16 NotDown
illegal I10 NoDc
restarted 0
told 0 incarnation 1 mark 0
illegal I15 OldNews
admitted 1
held number 1 insert 0/0/5 1
illegal I13 Down 0
up 0
sent 0 number 1 insert 0/0/5 1 low 0
reply 0 number 1 done
took number 1
ended 1 committed at 3
row 0/0/5 1
""",
        1,
    ),
    (
        """\
restart 70000
""",
        """\
refused line 61 F2 BadNumber
""",
        1,
    ),
    (
        """\
checkpoint 0
redo
""",
        """\
refused line 62 F1 BadLine
""",
        1,
    ),
]

# The same behind a put.
RESTARTS_BEHIND_A_PUT = [(
    """\
admit get 5
ask 2
perform 1
checkpoint 0
restart 0
tell 0
resend 2
redo 0
take 1
resend 2
perform 2
take 2
""",
    """\
admitted 2
sent 1 number 2 read 0/0/5 low 1
reply 1 number 2 value 100
checkpoint 0 mark 1
restarted 0
told 0 incarnation 1 mark 1
illegal I13 Down 0
up 0
illegal I9 Stranger
sent 2 number 2 read 0/0/5 low 1
reply 2 number 2 value 100
took number 2
row 0/0/5 100
""",
    1,
)]

# Cuts of the log behind a put, what is printed for them, and the status: wires and replies from before say nothing
# more, a restart leaves the rows of then, and a component that is behind or down bars a cut.
CUTS_BEHIND_A_PUT = [(
    """\
cut
cut
perform 0
take 1
crash 0
crash 1
admit get 5
cut
ask 2
perform 1
take 2
end 2
restart 0
cut
tell 0
cut
redo 0
cut
""",
    """\
cut 1 1
cut 1 1
reply 1 number 1 old
illegal I9 Stranger
illegal I17 NotWritten
crashed 1 open 0
admitted 2
illegal I19 NotCut G2 Open 1
sent 1 number 2 read 0/0/5 low 1
reply 2 number 2 value 100
took number 2
ended 2 committed at 4
restarted 0
illegal I19 NotCut G5 Behind
told 0 incarnation 1 mark 1
illegal I19 NotCut G4 Down
up 0
cut 2 2
row 0/0/5 100
""",
    1,
)]

# Steps and what is printed with an audit: of an answer that nobody gave.
AUDITS = [(
    """\
admit get 5
ask 1
forge 1 value 7
take 0
end 1
""",
    """\
admitted 1
sent 0 number 1 read 0/0/5 low 0
forged 0
took number 1
ended 1 committed at 3
refused U3 Mismatch 1
""",
    1,
)]

# The same behind a put: of what is whole; of a component that lost what isn't redone yet; and of one
# that lost a read, which nobody redoes.
AUDITS_BEHIND_A_PUT = [
    (
        """\
admit get 5
""",
        """\
admitted 2
row 0/0/5 100
audit ok ended 1 open 1
""",
        0,
    ),
    (
        """\
restart 0
""",
        """\
restarted 0
audit skipped dc 0 restarted
""",
        0,
    ),
    (
        """\
restart 0
tell 0
""",
        """\
restarted 0
told 0 incarnation 1 mark 0
audit skipped dc 0 down
""",
        0,
    ),
    (
        """\
admit get 5
ask 2
perform 1
take 1
end 2
restart 0
tell 0
redo 0
perform 2
take 2
redo 0
""",
        """\
admitted 2
sent 1 number 2 read 0/0/5 low 1
reply 1 number 2 value 100
took number 2
ended 2 committed at 7
restarted 0
told 0 incarnation 1 mark 0
redo 2 number 1 insert 0/0/5 100
reply 2 number 1 done
redone number 1
up 0
row 0/0/5 100
audit ok ended 2 open 0
""",
        0,
    ),
]


def rows(_program):
    """All rows."""
    dc = "dc 4 100\n"
    yield from (row("world -", four(dc) + steps, out, status) for steps, out, status in RESTARTS)
    yield from (behind_a_put("world -", dc, *it) for it in RESTARTS_BEHIND_A_PUT)
    yield from (row("world -", four(dc) + steps, out, status) for steps, out, status in CRASHES)
    yield from (behind_a_put("world -", dc, *it) for it in CUTS_BEHIND_A_PUT)
    yield from (row("world --audit -", four(dc) + steps, out, status) for steps, out, status in AUDITS)
    yield from (behind_a_put("world --audit -", dc, *it) for it in AUDITS_BEHIND_A_PUT)
    # the audit stands before the log
    log = events("01010000000000000100000000000000010000000000000000000000000000000500")
    yield row("world --log --audit -", four(dc) + "admit get 5\n", "admitted 1\naudit ok ended 0 open 1\n" + log)
