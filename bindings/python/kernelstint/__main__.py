"""What heap_tool run and heap_states answer, where no shell script runs.

usage: python -m kernelstint run < TRACE
       python -m kernelstint states < TRACE

The status is theirs: 0 done, 1 for want of memory, 2 words refused, 3 a faulty text, 4 a device that failed."""

import sys

from kernelstint import BadTrace, NoMemory, run, states

# One byte more than a trace may have: what is longer is told so, whatever else is in it.
MOST = 4_194_305


def answer_to(call: str, text: bytes) -> tuple[str, int]:
    try:
        return (run if call == "run" else states)(text), 0
    except BadTrace as wrong:
        return f"fault {wrong.fault}" + (f" {wrong.line}" if wrong.line else "") + "\n", 3
    except (MemoryError, NoMemory):
        return "fault memory\n", 1


def main(words: list[str]) -> int:
    if words not in (["run"], ["states"]):
        told, status = "usage: python -m kernelstint run < TRACE, or states < TRACE\n", 2
    else:
        try:
            with open(0, "rb", closefd=False) as device:
                text = device.read(MOST)
        except OSError:
            return 4
        told, status = answer_to(words[0], text)
    left = memoryview(told.encode())
    try:
        with open(1, "wb", buffering=0, closefd=False) as device:
            while left:
                left = left[device.write(left) :]
    except OSError:
        return 4
    return status


if __name__ == "__main__":
    sys.exit(main(sys.argv[1:]))
