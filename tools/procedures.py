"""Procedures that rows and models share, and scripts that begin with them."""

# Inserts a record with a number.
PUT = """\
proc put 2
slot write 0 0 $0
  ldxdw r6, [r1+8]
  mov r1, 0
  call 5
  stxdw [r0+0], r6
  mov r1, 0
  call 2
  exit
end
"""

# Reads a record; aborts where there is none.
GET = """\
proc get 1
slot read 0 0 $0
  mov r1, 0
  call 1
  jeq r0, 0, +2
  mov r0, 0
  exit
  mov r0, 1
  exit
end
"""

# Updates a record, and aborts.
BAD = """\
proc bad 1
slot write 0 0 $0
  mov r1, 0
  call 1
  jeq r0, 0, +5
  stdw [r0+0], 7
  mov r1, 0
  call 3
  mov r0, 5
  exit
  mov r0, 1
  exit
end
"""

# Moves an amount from one record to another.
MOVE = """\
proc move 3
slot write 0 0 $0
slot write 0 0 $1
  ldxdw r6, [r1+16]
  mov r1, 0
  call 1
  jeq r0, 0, +16
  mov r7, r0
  mov r1, 1
  call 1
  jeq r0, 0, +12
  mov r8, r0
  ldxdw r2, [r7+0]
  sub r2, r6
  stxdw [r7+0], r2
  ldxdw r2, [r8+0]
  add r2, r6
  stxdw [r8+0], r2
  mov r1, 0
  call 3
  mov r1, 1
  call 3
  exit
  mov r0, 1
  exit
end
"""

# The same, and aborts behind both writes.
BACK = MOVE.replace("proc move", "proc back").replace(", +16", ", +17").replace(", +12", ", +13")
BACK = BACK.replace("call 3\n  exit", "call 3\n  mov r0, 5\n  exit")

# One data component with room, and the four procedures behind it.
FOUR = "dc 4 100\n" + PUT + GET + BAD + MOVE


def four(dc):
    """The same behind another line for the data component."""
    return dc + PUT + GET + BAD + MOVE
