"""What heap_record says of a text on standard error: how much of the run it has, and what it hasn't."""

from texts import counted, title_of

COUNTED = (
    ("failed", "call", "failed"), ("doubled", "block", "handed out over live ones"), ("twice", "free", "of what was freed before"), ("strays", "free", "of what is no block"),
    ("inherited", "free", "of blocks from before the record left out"), ("in_place", "realloc", "in place told as a free and a malloc"))


def name_of(record):
    return title_of([record.name])


def share(record, text):
    """How many of a run's calls a text has."""
    if text.calls == record.answered:
        return f"all {counted(text.calls, 'call')}"
    if text.calls == 0:
        return f"none of the {counted(record.calls, 'call')}"
    return f"the first {text.calls:,} of {counted(record.calls, 'call')} ({1000 * text.calls // record.calls / 10} %)"


def is_cut(record, text):
    return text.calls < record.answered


def left_out(text):
    if text.counts["left_out"]:
        yield f"{counted(text.counts['left_out'], 'block')} of more than {counted(text.options.at_most, 'byte')} left out"


def part(record, text):
    """The last comment of a text that has not all calls or not all blocks; else None."""
    why = f", since {text.ended or 'a record has no more'}" if is_cut(record, text) else ""
    left = [*left_out(text)]
    return "; ".join([f"Part: {share(record, text)} of {name_of(record)}{why}", *left]) if why or left else None


def counts(text):
    """What was counted beside the commands, each where there is any."""
    yield from left_out(text)
    for what, one, told in COUNTED:
        if text.counts[what]:
            yield f"{counted(text.counts[what], one)} {told}"


def limits(record, text, other):
    """What of a run is in no text. `other` is the program's name at its end, where that isn't recorded."""
    if is_cut(record, text):
        yield f"it ends there, since {text.ended or 'a record has no more'}"
    yield from counts(text)
    if record.calls > record.answered:
        yield "a last call got no answer"
    if record.programs > 1:
        yield f"only of the last of {record.programs} programs that took each other's place in this process"
    if other:
        yield (f"only of {record.system_name}: {other} took its place and isn't recorded, since it is linked statically or was started with another "
               "LD_PRELOAD (--preload FILE loads a library beside the recorder)")
    if record.children:
        yield f"without {counted(record.children, 'process').replace('processs', 'processes')} that it started (--children FOLDER)"


def verdict(record, text):
    """What a log tells of the first call that no safe allocator answers so. No verdict is about what it hasn't."""
    if not text.options.is_log or not text.calls:
        return
    if text.first and text.first[0] <= text.calls:
        yield f"call {text.first[0]:,} is the first to {text.first[1]}"
    elif text.commands == 1:
        yield "it has none of their blocks"
    else:
        yield f"{'in it ' if part(record, text) else ''}no bytes that were freed are handed out again"


def told_of(record, text, other=None):
    kind = "log" if text.options.is_log else "trace"
    rest = f", and none from call {text.calls + 1:,} on" if text.calls and is_cut(record, text) else ""
    return "; ".join([f"the {kind} has {share(record, text)} of {name_of(record)}, in {counted(text.commands, 'command')}{rest}",
                      *verdict(record, text), *limits(record, text, other)])
