"""What the sentence of a step must say, and what it must not, by the command, its answer and the states around it. Nothing here
is shared with the page: the rules say which facts are true of a step, and in which words the page tells each."""

from page_model import NULL_WORD, Word

NEEDED = {"loadcap": [(2, "LOAD")], "write": [(3, "STORE")], "storecap": [(3, "STORE"), (5, "STORE_CAPABILITY")]}
TRAPS = {"empty": "a length of 0 has no bounds", "inexact": "no word can hold just these bounds", "freed": "was freed before, and is held",
         "notblock": "not just the bounds of a live block", "open": "an epoch is open", "notopen": "no epoch is open"}


class Step:
    """A step with the states around it."""

    def __init__(self, run, index):
        self.run, self.before, self.after = run, run.before(index), run.states[index]
        self.index, value = index, run.values[index]
        self.name, *self.words = value["text"].split()
        self.answer = value["reply"].split()
        self.blocks = value["blocks"]

    @staticmethod
    def register(state, name):
        tag, text = state.register(int(name[1:]))
        return tag, Word(text)

    def acting(self):
        return self.words[self.name in ("narrow", "loadcap")]

    def granule_at(self, address):
        return self.before.granule((address - self.run.base) // 16)[0]

    def waits(self, state):
        return "waiting" in state.blocks.values()


def facts(run, index):
    """Texts that the sentence of a step has, and texts that it has not."""
    step = Step(run, index)
    if step.answer[:1] == ["trap"]:
        return ["Refused: ", "A trap changes nothing.", of_trap(step)], []
    must, must_not = RULES.get(step.name, lambda _: ([], []))(step)
    if step.name in ("malloc", "copy", "setaddr", "narrow", "andperm", "loadcap") and step.words[0] == "c0":
        stale = [it for it in must if it in ("becomes live", "No place is long enough") or "sweep" in it]
        return [*stale, "c0 stays null"], [*must_not, "Refused"]
    return must, [*must_not, "Refused"]


def of_trap(step):
    kind, acting = step.answer[1], step.acting() if step.words else ""
    _, word = step.register(step.before, acting) if acting else (None, None)
    if kind == "freed":
        return f"the block of {step.before.name(step.before.block_of(word.base))} {TRAPS[kind]}"
    if kind in TRAPS:
        return TRAPS[kind]
    if kind == "tag":
        return f"{acting} has no tag"
    if kind == "align":
        return f"the address {word.address:#x} is no multiple of 16"
    if kind == "perm":
        lacks = next(called for bit, called in NEEDED[step.name] if not word.permissions >> bit & 1)
        return f"{acting} lacks the permission {lacks}. A trap"
    length = step.words[2] if step.name == "narrow" else "16"
    return f"{word.address:#x} is below the base {word.base:#x}" if word.address < word.base else f"{word.address:#x} + {length} is past the top {word.top:#x}"


def choose(facts_by_text, told):
    """The one text that is told, and those that are not."""
    return [told] if told else [], [text for text in facts_by_text if text != told]


def of_malloc(step):
    swept, has_place = "swept" in step.answer, step.answer[0] == "block"
    why = None if has_place or swept else "An epoch is open, so no sweep may come first." if step.before.open else "No block is held, so no sweep would help."
    must, must_not = choose(("An epoch is open", "An epoch is open, so no sweep may come first.", "No block is held, so no sweep would help."), why)
    must_not = [it for it in must_not if not (why or "").startswith(it)]
    must += ["becomes live", "gets its capability, tagged"] if has_place else ["No place is long enough", "becomes null", *rounding(int(step.words[1], 0))]
    (must if swept else must_not).append("a sweep came first and took")
    return must, must_not


def rounding(size):
    """What is said of a block that is longer than asked, or begins at multiples of more than a granule."""
    unit, length = 16, max(size, 1)
    while True:
        length = -(-length // unit) * unit
        exponent = 0
        while length >= 8192 << exponent:
            exponent += 1
        if 8 << exponent <= unit or length < 4096:
            break
        unit = 8 << exponent
    return [f"whose block has {length:,} and begins at a multiple of {unit}"] if length != size or unit > 16 else []


def of_copy(step):
    tag, word = step.register(step.before, step.words[1])
    if tag:
        return [f"gets the bits and the tag of {step.words[1]}."], ["becomes null", "which has no tag"]
    if word.text == NULL_WORD:
        return [f"becomes null, as {step.words[1]} is."], ["gets the bits", "which has no tag"]
    return [f"gets the bits of {step.words[1]}, which has no tag."], ["becomes null", "and the tag of"]


def of_narrow(step):
    _, old = step.register(step.before, step.words[1])
    _, new = step.register(step.after, step.words[0])
    must, must_not = choose(("with the same bounds", "with narrower bounds"), "with the same bounds" if old.bounds() == new.bounds() else "with narrower bounds")
    return [*must, "from its address on"], must_not


def of_andperm(step):
    """Of the five permissions those that are left, of those that there were, by their letters."""
    _, old = step.register(step.before, step.words[1])
    _, new = step.register(step.after, step.words[0])
    letters = ["".join(letter for bit, letter in ((2, "r"), (3, "w"), (4, "R"), (5, "W"), (0, "g")) if word.permissions >> bit & 1) or "none" for word in (new, old)]
    return [f"with those permissions that {step.words[2]} has too: {letters[0]} of {letters[1]}."], []


def of_setaddr(step):
    tag, old = step.register(step.before, step.words[1])
    _, new = step.register(step.after, step.words[0])
    told = "The bounds stay as they are." if old.bounds() == new.bounds() else "the tag is lost" if tag else "there was no tag to lose"
    must, must_not = choose(("The bounds stay as they are.", "the tag is lost", "there was no tag to lose"), told)
    (must_not if told.startswith("The bounds") else must).append("the same bits mean other bounds")
    return must, must_not


def of_loadcap(step):
    _, through = step.register(step.before, step.words[1])
    got, _ = step.register(step.after, step.words[0])
    told = ", and its tag." if got else "Its tag stays behind, since" if step.granule_at(through.address) else "; it has no tag."
    return choose((", and its tag.", "Its tag stays behind, since", "; it has no tag.", "LOAD_CAPABILITY"), told) if "behind" not in told else (
        [told, f"{step.words[1]} lacks the permission LOAD_CAPABILITY"], [", and its tag.", "it has no tag"])


def of_storecap(step):
    tag, _ = step.register(step.before, step.words[1])
    must, must_not = choose((" and its tag.", ", which has no tag."), " and its tag." if tag else ", which has no tag.")
    _, source = step.register(step.before, step.words[1])
    block = step.before.block_of(source.base) if tag else None
    is_stale = block is not None and step.before.blocks[block] != "live" and step.words[0] != step.words[1]
    (must if is_stale else must_not).append(f"What is stored is stale: the block of {step.before.name(block)} is held." if is_stale else "What is stored is stale")
    _, through = step.register(step.before, step.words[0])
    is_told = tag and step.before.open
    (must if is_told else must_not).append(f"page {(through.address - step.run.base) // 4096} is dirty now" if is_told else "is dirty now")
    return must, must_not


def of_show(step):
    tag, _ = step.register(step.before, step.words[0])
    must, must_not = choose(("It is tagged.", "It has no tag."), "It is tagged." if tag else "It has no tag.")
    return [*must, "Nothing changes."], must_not


def of_sweep(step):
    told = "looks at every tagged granule" if step.waits(step.before) else "No block is held"
    return choose(("looks at every tagged granule", "No block is held"), told)


def of_begin(step):
    told = "The held blocks are painted" if step.waits(step.before) else "No block is held, so none is painted"
    must, must_not = choose(("The held blocks are painted", "No block is held, so none is painted"), told)
    return ["An epoch begins.", *must], must_not


def of_end(step):
    late = "Blocks that were freed since it began wait on."
    must, must_not = choose((late,), late if step.waits(step.after) else None)
    pages = step.run.looked(step.index)
    named = ", ".join(f"page {page}" for page in pages[:8]) + (", .." if len(pages) > 8 else "")
    return ["The epoch ends: ", f"and in dirty pages ({named})" if named else "in registers (no page is dirty)", *must], [*must_not, *([] if must else ["wait on"])]


def of_free(step):
    waits = "It waits for the next epoch, since one is open."
    must, must_not = choose((waits,), waits if step.before.open else None)
    _, word = step.register(step.before, step.words[0])
    return [f"The block of {step.before.name(step.before.block_of(word.base))} goes into quarantine", "No tag is taken", *must], must_not


RULES = {
    "malloc": of_malloc, "free": of_free, "setaddr": of_setaddr, "loadcap": of_loadcap, "storecap": of_storecap, "show": of_show,
    "sweep": of_sweep, "begin": of_begin, "end": of_end,
    "copy": of_copy, "narrow": of_narrow, "andperm": of_andperm,
    "write": lambda step: (["16 bytes of data, and no tag"], []),
    "heap": lambda step: (["A new heap"], []),
}
