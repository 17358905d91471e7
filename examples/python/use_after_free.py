"""A use after free, and the sweep that stops it, in Python: a block is freed while a second capability of it is left, which still
writes to it until a sweep takes its tag. Only then are its bytes handed out again."""

from kernelstint import Command, CommandKind, ReplyKind, State, Trap

MALLOC = Command(CommandKind.MALLOC, 1, number=20)
WRITE_BY_COPY = Command(CommandKind.WRITE, 2, data=bytes(16))


def write_by_copy(state):
    """Writes 16 zero bytes by register 2. A trap is a reply as others are, and leaves the state as it was."""
    after, reply = state.step(WRITE_BY_COPY)
    print("written" if reply.kind != ReplyKind.TRAP else "trap: no tag" if reply.trap == Trap.TAG else "trap")
    return after


state, reply = State.first(0x40000000, 1).step(MALLOC)
print(reply.text)
# A command may be a line of a trace as well.
state, _ = state.step("copy c2 c1")
state, reply = state.step("free c1")
print(reply.text)
# The use after free: it harms nobody, since these bytes are no other block's yet.
state = write_by_copy(state)
# The sweep takes the tags of all capabilities whose base lies in the freed block, and then its bytes are free.
state, reply = state.step("sweep")
print(reply.text)
state, reply = state.step(MALLOC)
print(reply.text)
state = write_by_copy(state)
print("live", state.live, "held", state.held, "free", state.free)
