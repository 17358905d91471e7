#!/usr/bin/env python3
"""A naive judge of logs: what has to be said of a log by docs/DEFINITIONS.md, with nothing of the crates. As a program it
reads a log from standard input and says it as `heap_check` does, with the same statuses, so that the scripts which try that
program can be tried on this.

usage: testing/log_model.py [--workers N] [--cut N] < LOG"""

import argparse
import re
import sys
from typing import NamedTuple

sys.dont_write_bytecode = True

from log_state import NULL, State, is_exact, overlapping, word_of_data
from log_words import REVOKER, Fault, read_log, read_trace, with_answers

AGREES, FAULTY, WRONG = 0, 3, 5
# So many of the words that are due are told.
MOST_TOLD = 100
PASSES = ("sweep", "begin", "end")
NO_ANSWER = "a malloc is answered by a block or by nospace"
OPEN = "no sweep may be told: an epoch is open"
NONE_WAITS = "no sweep may be told: no block waits"


class Verdict(NamedTuple):
    """The status, the line that is named, and the texts that may be written: several where more than one reason is true."""

    status: int
    line: int
    texts: list


class Unsafe(Exception):
    """The first state that a log gives isn't safe: the line, and the lacks of which one is told."""


# ---- blocks


def named(base, top):
    return f"block {base:#x} {top:#x}"


def why_no_block(state, base, top):
    """Why these can't be the bounds of a block, wherever others lie, or None."""
    if base % 16 or top % 16:
        return f"{named(base, top)} is not whole granules"
    if base >= top:
        return f"{named(base, top)} is empty"
    if base < state.base or top > state.top:
        return f"{named(base, top)} lies outside the heap"
    return None if is_exact(base, top) else f"{named(base, top)} has bounds that no capability holds"


def why_not_there(state, base, top, held):
    """Why no block may be handed out there while these are held, or None."""
    if why := why_no_block(state, base, top):
        return why
    for kind, blocks in ("live", state.live), ("held", held):
        for block in overlapping(blocks, base, top):
            return f"{named(base, top)} lies over the {kind} {named(*block)}, {blocks[block]}"
    return None


# ---- what a log says


def counted(count, one, more=None):
    return f"{count} {one if count == 1 else more or one + 's'}"


def but_said(must, said):
    """What must be said, and what the log says in place of it."""
    return f"{must}, and the log says {said}"


# ---- what a malloc is answered


def told_by_malloc(answer):
    """The bounds of the block and the tags of the sweep that the words tell, each None where they tell of none."""
    block = tuple(int(it, 16) for it in answer[1:3]) if answer[0] == "block" else None
    return block, int(answer[-1]) if "swept" in answer else None


def wrong_with_malloc(state, size, answer):
    """All that is wrong with an answer, each with the words that are to be told with it, or None."""
    if answer[0] not in ("block", "nospace"):
        return [(but_said(NO_ANSWER, " ".join(answer)), None)]
    block, swept = told_by_malloc(answer)
    wrong, is_allowed, held = [], swept is None or state.may_sweep(), state.held()
    if not is_allowed:
        wrong += [(OPEN, None)] if state.is_open else []
        wrong += [] if state.waiting else [(NONE_WAITS, None)]
    if block and block[1] - block[0] < max(1, size):
        wrong.append((f"{named(*block)} is shorter than the size asked for", None))
    if swept is not None and is_allowed:
        due, held = state.due_in("sweep"), state.painted
        wrong += [(but_said(f"the sweep takes {counted(len(due), 'tag')}", " ".join(answer)), due)] if swept != len(due) else []
    if block and is_allowed and (why := why_not_there(state, *block, held)):
        wrong.append((why, None))
    return wrong


def do_malloc(state, register, answer):
    """Does it as it was answered, whatever that is."""
    block, swept = told_by_malloc(answer)
    if swept is not None:
        state.swept(state.due_in("sweep"))
    if block:
        state.hand_out(register, *block)
    else:
        state.put(register, NULL, False)


# ---- what other events say


def told_tags(answer):
    """How many tags a pass is told to have taken, and whether it is told what was released; None for other answers."""
    told = re.fullmatch("cleared ([0-9]+)( released [0-9]+)?", answer)
    return told and (int(told[1]), bool(told[2]))


def wrong_with_one(name, due, right, answer):
    """What is wrong with an answer in place of the right one, with the words that are told with it. Where no pass of this
    kind is told of, they may be told or not."""
    reason = but_said(f"the answer must be {right}", answer)
    right_tags, tags = told_tags(right), told_tags(answer)
    if right == "trap left":
        return [(reason, due)]
    if name not in PASSES or not right_tags:
        return [(reason, None)]
    if not tags or tags[1] != right_tags[1]:
        return [(reason, None), (reason, due)]
    return [(reason, due if tags[0] != right_tags[0] else None)]


def content_of(held):
    word, tag = held
    return f"{tag:d} {word.data()}"


def wrong_with_seen(state, address, tag, data):
    if not state.has_granule(address):
        return [("no granule of the heap lies at this address", None)]
    held = state.granule(address)
    seen = (word_of_data(data), tag)
    return [] if held == seen else [(but_said(f"the granule holds {content_of(held)}", content_of(seen)), None)]


def follow(state, event):
    """What is wrong with an event, each with the words that are due; where nothing is, the state is the one after it."""
    state.line = event.line
    if event.name == "granule":
        return wrong_with_seen(state, *event.operands, *event.answer)
    if event.name == "malloc":
        wrong = wrong_with_malloc(state, event.operands[1], event.answer)
        if not wrong:
            do_malloc(state, event.operands[0], event.answer)
        return wrong
    due = state.due(state.painted) if event.name == "release" else state.due_in(event.name) if event.name in PASSES else []
    right, answer = state.does(event.line, event.name, event.operands), " ".join(event.answer)
    return [] if right == answer else wrong_with_one(event.name, due, right, answer)


# ---- the first state


def give_blocks(state, givens):
    """Puts the blocks there that the lines give, each where nothing is wrong with it."""
    lines = {}
    for line, kind, operands in givens:
        if kind == "epoch":
            state.is_open = True
        elif kind in ("live", "waiting", "painted"):
            block = tuple(operands)
            over = [f"the block lies over the {named(*it)}, given at line {lines[it]}" for it in overlapping(lines, *block)]
            why = why_no_block(state, *block)
            if why or over:
                raise Unsafe(line, [why.replace(named(*block), "the block")] if why else over)
            lines[block] = line
            getattr(state, kind)[block] = f"given at line {line}"
    # A painted block is one of an epoch that is open.
    state.is_open = state.is_open or bool(state.painted)


def lack_of_word(state, word):
    """What a tagged word lacks, or None: its bounds lie in one block, and its base below its top."""
    blocks = [*state.live, *state.waiting, *state.painted]
    is_guarded = word.base < word.top and any(base <= word.base and word.top <= top for base, top in blocks)
    return None if is_guarded else f"the word's bounds {word.base:#x} {word.top:#x} lie in no block"


def refuse_words_given_again(givens):
    lines = {}
    for line, kind, operands in givens:
        if kind in ("register", "granule"):
            place = (kind, operands[0])
            if place in lines:
                told = f"register c{operands[0]}" if kind == "register" else f"granule {operands[0]:#x}"
                raise Unsafe(line, [f"{told} was given at line {lines[place]}"])
            lines[place] = line


def give_words(state, givens):
    for line, kind, operands in givens:
        if kind not in ("register", "granule"):
            continue
        number, tag, data = operands
        word = word_of_data(data)
        if (kind, number) == ("register", 0) and (word, tag) != (NULL, False):
            raise Unsafe(line, ["register c0 is always null"])
        if kind == "granule" and not state.has_granule(number):
            raise Unsafe(line, ["no granule of the heap lies at this address"])
        if tag and (lack := lack_of_word(state, word)):
            raise Unsafe(line, [lack])
        if kind == "register":
            state.put(number, word, tag)
        else:
            state.memory[number] = (word, tag)


def first_state(log):
    state = State(log.base, log.pages)
    give_blocks(state, log.givens)
    refuse_words_given_again(log.givens)
    give_words(state, log.givens)
    return state


# ---- whole logs


def told_due(state, due):
    """The words that are due, a line each, the first ones, and how many they are."""
    if due is None:
        return ""
    places = [(f"c{number}" if kind == "register" else f"granule {number:#x}", state.cell((kind, number))[0]) for kind, number in due]
    return "".join(f"{name} base {word.base:#x}\n" for name, word in places[:MOST_TOLD]) + f"{counted(len(due), 'word')} due\n"


def tally(log):
    """What the answers of a log that agrees come to."""
    answers = [(it.name, " ".join(it.answer)) for it in log.events if it.name != "granule"]
    blocks = sum(answer.startswith("block ") for _, answer in answers)
    took = [(name, int(found[2])) for name, answer in answers if (found := re.search("(swept|cleared) ([0-9]+)", answer))]
    # A pass in a revoker's own steps is that of its epoch.
    passes = sum(name not in REVOKER for name, _ in took) + answers.count(("paint", "ok"))
    tags = sum(count for _, count in took)
    told = [counted(len(answers), "command"), counted(blocks, "block") + " handed out", counted(passes, "pass", "passes"), counted(tags, "tag") + " taken"]
    return f"agrees {', '.join(told)}\n"


def judge(text):
    try:
        log = read_log(text)
        state = first_state(log)
    except Fault as fault:
        return Verdict(FAULTY, None, [f"fault {fault}\n"])
    except Unsafe as unsafe:
        line, lacks = unsafe.args
        return Verdict(WRONG, line, [f"unsafe {line}: {lack}\n" for lack in lacks])
    for event in log.events:
        if wrong := follow(state, event):
            return Verdict(WRONG, event.line, [f"differs {event.line}: {why}\n{told_due(state, due)}" for why, due in wrong])
    return Verdict(AGREES, None, [tally(log)])


def log_of_trace(text):
    """The log of a trace as a run does it; a faulty trace has a fault."""
    base, pages, commands = read_trace(text)
    state = State(base, pages)
    return with_answers(text, {line: state.does(line, name, operands) for line, name, operands in commands})


def main():
    words = argparse.ArgumentParser(description=__doc__, formatter_class=argparse.RawDescriptionHelpFormatter)
    words.add_argument("--workers", type=int)
    words.add_argument("--cut", type=int)
    words.parse_args()
    verdict = judge(sys.stdin.buffer.read().decode("latin-1"))
    sys.stdout.buffer.write(verdict.texts[0].encode("latin-1"))
    return verdict.status


if __name__ == "__main__":
    sys.exit(main())
