"""Tests of the playground's tasks, for testing/playground: the language of goals by itself, in Node; each task with a right solution and a
wrong one, which stand in testing/goals.json; hints; what is handed in; links, files and fields that set a task."""

import collections
import json
import pathlib
import shutil
import subprocess
import tempfile
import urllib.parse

ROOT = pathlib.Path(__file__).resolve().parent.parent
GIVEN = json.loads((ROOT / "testing/goals.json").read_text())
# The tasks of the page: the lesson, what is asked, the goal and the hints of each.
ROWS = [row.split("\t") for row in (ROOT / "page/playground/goals.txt").read_text().splitlines()]
NOT_YET = "heap 0x40000000 1\nmalloc c1 32\nfree c1\n"
MET = NOT_YET + "sweep\n"
PANEL = ("const rows = [...document.querySelectorAll('#conditions li')];"
         " return [document.querySelector('#met').textContent, rows.map(row => [row.dataset.met, row.textContent.slice(2)])]")
ASKS = "return document.querySelector('#asks').textContent"
SAVED = "URL.createObjectURL = blob => { blob.text().then(text => { document.body.dataset.saved = text; }); return 'data:,'; };"
WHOSE = "return [document.querySelector('#whose').textContent, document.querySelector('#whose').className]"
FIELD = "const field = document.querySelector('#%s'); field.focus(); field.value = %s; field.dispatchEvent(new Event('input'))"
DROP = ("const given = new DataTransfer(); given.items.add(new File([%s], 'given'));"
        " document.body.dispatchEvent(new DragEvent('drop', { bubbles: true, cancelable: true, dataTransfer: given }))")
TEXT = "return (document.querySelector('.CodeMirror').wrappedJSObject ?? document.querySelector('.CodeMirror')).CodeMirror.getValue()"


def lesson_text(lesson, changed):
    lines = (ROOT / f"examples/lesson_{lesson}/stdin").read_text().split("\n")
    for number, line in changed.items():
        lines[int(number) - 1] = line
    return "\n".join(lines)


def states_of(text):
    return subprocess.run([ROOT / "heap_states"], input=text.encode(), stdout=subprocess.PIPE).stdout.decode()


def judged_by_node(questions):
    """The forms of conditions, with what else may stand in them, and what is found of each text and goal; None without Node."""
    if shutil.which("node") is None:
        return None
    with tempfile.TemporaryDirectory() as scratch:
        page = pathlib.Path(scratch, "page")
        shutil.copytree(ROOT / "page", page)
        page.joinpath("package.json").write_text('{ "type": "module" }\n')
        asked = "".join(json.dumps({"text": text, "data": states_of(text) if text else None, "goal": goal}) + "\n" for text, goal in questions)
        told = subprocess.run(["node", ROOT / "testing/goal_answers.mjs", page], input=asked.encode(), stdout=subprocess.PIPE, check=True).stdout.decode()
    forms, *answers = [json.loads(line) for line in told.splitlines()]
    return forms, answers


def link_of(goal, lesson="", asks=""):
    parts = {"lesson": lesson, "goal": goal, "asks": asks}
    return "#" + "&".join(f"{name}={urllib.parse.quote(value)}" for name, value in parts.items() if value)


class GoalTests:
    """Of a `Tests` of testing/playground, which has `check`, `wait`, `open` and the like."""

    def goal_language(self):
        """Each condition where it holds and where it doesn't, goals that can't be read, and each task, in Node."""
        trace = "\n".join(GIVEN["trace"]) + "\n"
        questions = [(trace, it["goal"]) for it in GIVEN["conditions"]] + [(trace, it["goal"]) for it in GIVEN["unreadable"]]
        questions += [(lesson_text(it["lesson"], it[kind]), row[2]) for it, row in zip(GIVEN["tasks"], ROWS) for kind in ("right", "wrong")]
        questions += [("", "c1 has no tag"), (trace, ""), (trace, " and \n , "), (trace, "c9 has no tag and " * 200)]
        told = judged_by_node(questions)
        if told is None:
            print("skipped: the language of goals, no Node")
            return
        forms, answers = told
        answers = iter(answers)
        for it, answer in zip(GIVEN["conditions"], answers):
            self.check(f"the goal {it['goal']}", [answer["isMet"], answer["judged"][-1]["found"]], [it["isMet"], it["found"]])
        tried = [[it["isMet"] for it in GIVEN["conditions"] if self.is_like(form, it["goal"])] for (form, *_), _ in forms]
        self.check("a condition of each form is tried, true and false", [{*it} for it in tried], [{True, False}] * len(forms))
        for it, answer in zip(GIVEN["unreadable"], answers):
            found = answer["judged"][0]["found"]
            self.check(f"the goal {it['goal']} can't be read", [answer["isMet"], found.startswith(f"it can’t be read; near it is “{it['near']}”")], [False, True])
        for it, row in zip(GIVEN["tasks"], ROWS):
            self.check(f"the task “{row[1]}” in Node", [next(answers)["isMet"], next(answers)["isMet"]], [True, False])
        self.check("without a run, of no condition, and of too many nothing is met", [answer["isMet"] for answer in answers], [False] * 4)
        document = (ROOT / "docs/REFERENCE.md").read_text()
        self.check("the conditions are those of docs/REFERENCE.md", [form for examples, _ in forms for form in examples if f"`{form}`" not in document], [])

    @staticmethod
    def is_like(form, goal):
        """Whether a goal is of a form: most of its words stand there."""
        words = form.replace('"', " ").split()
        return 2 * len([word for word in words if word in goal.split()]) > len(words)

    def shown(self, browser, what):
        """What the panel tells, once it is told of the text that stands there."""
        self.wait(browser, what, "const panel = document.querySelector('#goal'); return panel !== null && !panel.hidden && !panel.classList.contains('waits')")
        return browser.value(PANEL)

    def goals(self, browser):
        """Each task with the lesson's own text, with a right solution and with a wrong one; its hints are folded."""
        self.check("the tasks that are tried are those of the page", [[it["lesson"], it["asks"]] for it in GIVEN["tasks"]], [row[:2] for row in ROWS])
        for it, (lesson, asks, goal, *hints) in zip(GIVEN["tasks"], ROWS):
            self.open(browser, f"#lesson={lesson}")
            browser.value(f"[...document.querySelectorAll('[data-goal]')].find(button => button.parentNode.textContent.startsWith({json.dumps(asks)})).click()")
            self.check(f"{browser.name}: “{asks}”: not yet", self.shown(browser, "a task is shown")[0], "not yet")
            seen = browser.value("return [document.querySelector('#asks').textContent, [...document.querySelectorAll('#goal details')].map(hint => hint.open),"
                                 " [...document.querySelectorAll('#goal details > p')].map(hint => hint.textContent), document.querySelectorAll('#goal > details').length]")
            self.check(f"{browser.name}: “{asks}”: its hints are folded, each within the one before", seen, [asks, [False] * len(hints), hints, 1])
            for kind, told in (("right", "met"), ("wrong", "not yet")):
                self.put_text(browser, lesson_text(lesson, it[kind]))
                seen = self.shown(browser, "a solution is judged")
                self.check(f"{browser.name}: “{asks}”: the {kind} solution", [seen[0], any(met == "false" for met, _ in seen[1]), len(seen[1])],
                           [told, kind == "wrong", goal.count(" and ") + 1])

    def faulty_goals(self, browser):
        """A faulty trace meets nothing; a goal that can't be read is told; a stopped or empty text, and a log, meet nothing."""
        self.open(browser, link_of("c1 has no tag and c1 had a tag", "use_after_free"))
        met, rows = self.shown(browser, "a goal that can't be read is told")
        self.check(f"{browser.name}: a goal that can't be read", [met, [[is_met, text.split(" near")[0]] for is_met, text in rows]],
                   ["not yet", [["true", "c1 has no tag: it has none"], ["false", "c1 had a tag: not yet, it can’t be read;"]]])
        self.open(browser, link_of("c1 has no tag and bytes live are 0", asks="Free it."))
        self.put_text(browser, MET)
        self.check(f"{browser.name}: a goal of a link is met", self.shown(browser, "a goal of a link"),
                   ["met", [["true", "c1 has no tag: it has none"], ["true", "bytes live are 0: they are 0"]]])
        self.put_text(browser, NOT_YET)
        self.check(f"{browser.name}: it is not yet met", self.shown(browser, "a goal of a link"),
                   ["not yet", [["false", "c1 has no tag: not yet, it has one"], ["true", "bytes live are 0: they are 0"]]])
        without_map = [MET + "begin\nend\n" * 10_000, (ROOT / "examples/check_agrees/stdin").read_text()]
        for text, told in ((MET + "free\n", "not yet: line 5 has a fault, bad-count"), ("", "not yet: nothing has run"),
                           *((text, "not yet: what has no map isn’t judged") for text in without_map)):
            self.put_text(browser, text)
            met, rows = self.shown(browser, "a text that can't be judged")
            self.check(f"{browser.name}: what isn't judged, {told}", [met, [is_met for is_met, _ in rows]], [told, ["false", "false"]])
        self.put_text(browser, MET)
        self.check(f"{browser.name}: a mended text is met", self.shown(browser, "a mended text")[0], "met")
        browser.value("document.activeElement.blur()")
        browser.key("q")
        self.check(f"{browser.name}: without quarantine nothing is met", self.shown(browser, "a run without quarantine")[0], "not yet: without quarantine nothing is judged")

    def goal_links(self, browser):
        """A goal stays in the address while one types, and a link has it; a lesson of the menu leaves it; fields set one."""
        goal = 'c1 has no tag and the trace has "sweep"'
        self.open(browser, link_of(goal, "contents_stay", "What is <b>asked</b>?"))
        self.put_text(browser, NOT_YET)
        self.shown(browser, "a goal is kept")
        told = "const told = new URLSearchParams(%s); return [told.get('goal'), told.get('asks')]"
        self.check(f"{browser.name}: the address keeps the goal", browser.value(told % "location.hash.slice(1)"), [goal, "What is <b>asked</b>?"])
        browser.value("document.querySelector('#copy').click()")
        self.wait(browser, "the link is there", "return document.querySelector('#link').value.includes('t=')")
        self.check(f"{browser.name}: the link has the goal", browser.value(told % "document.querySelector('#link').value.split('#')[1]"),
                   [goal, "What is <b>asked</b>?"])
        browser.go(browser.value("return document.querySelector('#link').value"))
        self.wait(browser, "a link with a goal opens", "return document.body?.dataset.steps === '3'")
        self.check(f"{browser.name}: a link with a goal", [self.shown(browser, "its goal")[0], browser.value(ASKS)], ["not yet", "What is <b>asked</b>?"])
        browser.value(f"location.hash = {json.dumps(link_of('tags are 0'))}")
        self.wait(browser, "another goal comes into an open tab", "return document.querySelector('#conditions').textContent.includes('tags are 0')")
        self.check(f"{browser.name}: the text stays with another goal", browser.value(TEXT), NOT_YET)
        browser.value("const menu = document.querySelector('#lesson'); menu.value = 'contents_stay'; menu.dispatchEvent(new Event('change'))")
        self.wait(browser, "a lesson of the menu leaves the task", "return document.body.dataset.shown === 'contents_stay' && document.querySelector('#goal').hidden")
        self.goal_fields(browser)

    @staticmethod
    def called(task):
        """A task of a row as the page names it."""
        lesson = ROWS[task][0]
        return f"task {[row[0] for row in ROWS[:task + 1]].count(lesson)} of the lesson “{lesson.replace('_', ' ').capitalize()}”"

    def not_of(self, verdict, *tasks):
        """What is told of a goal that stands in the place of others."""
        told = (f"This is not the goal of {self.called(task)}, which is “{ROWS[task][2]}”; by that one: {verdict}." for task in tasks)
        return [" ".join(told), "refused"]

    def whose_goals(self, browser):
        """Whose goal it is that is met: in each way in which a student comes to another one it is told beside the lesson's."""
        right, begun, goals = lesson_text(ROWS[0][0], GIVEN["tasks"][0]["right"]), lesson_text(ROWS[0][0], {}), [row[2] for row in ROWS]
        own, none = [f"The goal is that of {self.called(0)}.", "muted"], ["No lesson has this goal.", "muted"]
        lazy, asks, most = 'the trace has "sweep"', ROWS[0][1], " and ".join(goals[0].split(" and ")[:2])
        heap = "The heap is not the lesson’s: here is “heap 0x40000000 2”, and there “heap 0x40000000 1”."
        wider = right.replace("heap 0x40000000 1", "heap 0x40000000 2")
        for what, at, text, wanted in (
                ("the lesson's own", link_of(goals[0], ROWS[0][0]), right, own),
                ("the lesson's, its conditions in another order", link_of(" AND ".join(reversed(goals[0].upper().split(" AND ")))), right, own),
                ("the lesson's, the trace with another first line", link_of(goals[0]), "# Mine.\n" + right, own),
                ("a goal of the address alone", link_of(lazy, ROWS[0][0]), begun, self.not_of("not yet", 0, 1)),
                ("a goal without one condition", link_of(most), "\n".join([right, *["show c1"] * 9]), self.not_of("not yet", 0)),
                ("another goal under the lesson's question", link_of(lazy, asks=asks), right, self.not_of("met", 0)),
                ("the goal of another lesson under its question", link_of(goals[4], asks=asks), right, self.not_of("met", 0)),
                ("another lesson's goal", link_of(goals[4], ROWS[0][0]), lesson_text(ROWS[4][0], {}), [f"The goal is that of {self.called(4)}.", "muted"]),
                ("a goal in the trace's comments", link_of(goals[0]), f"# goal: {lazy}\n" + begun, self.not_of("not yet", 0)),
                ("another heap", link_of(goals[0]), wider, [f"{own[0]} {heap}", "refused"]),
                ("a teacher's own", link_of("tags are 0", asks="Take all."), MET, none)):
            self.open(browser, at)
            self.put_text(browser, text)
            self.shown(browser, what)
            self.check(f"{browser.name}: whose goal it is: {what}", browser.value(WHOSE), wanted)
        self.changed_goals(browser, lazy, begun)

    def changed_goals(self, browser, lazy, begun):
        """By the fields, and in a file that is dropped where a task is open; and what is handed in then."""
        self.open(browser, "#lesson=" + ROWS[0][0])
        browser.value("document.querySelector('#about [data-goal]').click()")
        browser.value(FIELD % ("set-goal", json.dumps(lazy)))
        self.check(f"{browser.name}: a goal that was changed in its field", [self.shown(browser, "a changed goal")[0], *browser.value(WHOSE)], ["met", *self.not_of("not yet", 0)])
        wanted = ["This is not the goal of the task that was here before, which is “tags are 0”; by that one: not yet.", "refused"]
        handed = "# A trace for a task of the heap playground.\n# task: Take all.\n# goal: tags are 1\n# The trace:\n" + NOT_YET
        for what, act in (("in its field", FIELD % ("set-goal", json.dumps("tags are 1"))), ("in a file that is dropped", DROP % json.dumps(handed))):
            self.open(browser, link_of("tags are 0", asks="Take all."))
            self.put_text(browser, NOT_YET)
            browser.value(act)
            self.wait(browser, "another goal is there", "return document.querySelector('#conditions').textContent.includes('tags are 1')")
            self.check(f"{browser.name}: a teacher's goal that was changed {what}", [self.shown(browser, "a changed goal")[0], *browser.value(WHOSE)], ["met", *wanted])
        if browser.name == "Chromium":
            self.open(browser, link_of(lazy, ROWS[0][0]))
            self.put_text(browser, begun.replace("heap 0x40000000 1", "heap 0x40000000 2"))
            self.shown(browser, "a lazy goal")
            browser.value(SAVED + "document.querySelector('#hand-in').click()")
            self.wait(browser, "a lazy goal is handed in", "return document.body.dataset.saved !== undefined")
            lines = browser.value("return document.body.dataset.saved").split("# The last replies:")[0].splitlines()
            self.check("what is handed in by another goal", lines[1:], [
                f"# goal: {lazy}", f"# result: met, by another goal than that of {self.called(0)}, {self.called(1)}", f"# holds: {lazy} (it is line 11)",
                *(f"# {self.not_of('not yet', task)[0]}" for task in (0, 1)),
                "# The heap is not the lesson’s: here is “heap 0x40000000 2”, and there “heap 0x40000000 1”.", f"# Commands: {self.shared(begun, ROWS[0][0])} more."])

    def goal_fields(self, browser):
        browser.value(FIELD % ("set-goal", json.dumps("tags are 0\nbytes held are 5")))
        browser.value(FIELD % ("set-asks", json.dumps("Hold five.")))
        met, rows = self.shown(browser, "a goal of the fields")
        self.check(f"{browser.name}: a goal of the fields", [met, [text.split(":")[0] for _, text in rows], browser.value(ASKS)],
                   ["not yet", ["tags are 0", "bytes held are 5"], "Hold five."])
        browser.value("document.querySelector('#set-copy').click()")
        link = "lesson=contents_stay&goal=tags%20are%200%0Abytes%20held%20are%205&asks=Hold%20five."
        self.wait(browser, "the link of a task", f"return document.querySelector('#link').value.includes('{link}')")
        self.put_text(browser, "# task: Say it.\n# goal: c1 has no tag\n" + MET)
        self.check(f"{browser.name}: a trace that tells its own goal", self.shown(browser, "an own goal"), ["met", [["true", "c1 has no tag: it has none"]]])
        self.check(f"{browser.name}: it comes first", browser.value(ASKS), "Say it.")
        self.check(f"{browser.name}: no field overrules it", browser.value("return [document.querySelector('#set-goal').readOnly, document.querySelector('#leave')]"), [True, None])

    @staticmethod
    def shared(text, lesson):
        """How many of a lesson's commands a trace has, and how many others."""
        here, there = (collections.Counter([line for line in each.splitlines() if line and line[0] != "#"][1:]) for each in (text, lesson_text(lesson, {})))
        return f"{(here & there).total()} of the {there.total()} of the lesson, and {(here - there).total()}"

    def hands_in(self, browser):
        """What is handed in tells all, is a trace, and opens with its task; so does what is saved."""
        it, (lesson, asks, goal, *_) = GIVEN["tasks"][4], ROWS[4]
        text = lesson_text(lesson, it["wrong"])
        handed = (f"# A trace for a task of the heap playground.\n# task: {asks}\n" + "".join(f"# goal: {condition}\n" for condition in goal.split(" and "))
                  + '# result: not yet\n# holds: the trace has "free c1" (it is line 13)\n# not yet: the last sweep takes 1 tag (it takes 2)\n'
                  "# holds: the address of c3 is 0x40000010 (it is 0x40000010)\n# not yet: c3 has a tag (it has none)\n"
                  f"# The goal is that of {self.called(4)}.\n# Commands: {self.shared(text, lesson)} more.\n# The last replies:\n")
        if browser.name == "Chromium":  # where the page's own functions are in reach
            self.open(browser, link_of(goal, lesson))
            self.put_text(browser, text)
            self.shown(browser, "a solution")
            browser.value(SAVED + "document.querySelector('#hand-in').click()")
            self.wait(browser, "it is handed in", "return document.body.dataset.saved !== undefined")
            saved = browser.value("return document.body.dataset.saved")
            self.check("what is handed in", [saved[:len(handed)], saved[-len(text) - 14:]], [handed, "\n# The trace:\n" + text])
            number, _, answer = subprocess.run([ROOT / "heap_tool", "run"], input=text.encode(), stdout=subprocess.PIPE).stdout.decode().split("\n")[-3].split(" ", 2)
            self.check("its last reply", saved[len(handed):-len(text) - 14].split("\n")[-1], f"# line {number}: {text.splitlines()[int(number) - 1]} -> {answer}")
            self.check("it is a trace", states_of(saved).count("\n"), states_of(text).count("\n"))
            browser.value("delete document.body.dataset.saved; document.querySelector('#keep').click()")
            self.wait(browser, "a trace with a task is saved", "return document.body.dataset.saved !== undefined")
            self.check("what is saved", browser.value("return document.body.dataset.saved"), handed.split("# result")[0] + "# The trace:\n" + text)
        self.open(browser)
        browser.value(DROP % json.dumps(handed + "# line 1: x\n# The trace:\n" + text))
        self.wait(browser, "what was handed in is opened", "return document.querySelector('#conditions')?.children.length === 4")
        met, rows = self.shown(browser, "its task")
        self.check(f"{browser.name}: what was handed in opens with its task", [met, [condition for condition, _ in rows], browser.value(TEXT), browser.value(ASKS)],
                   ["not yet", ["true", "false", "true", "false"], text, asks])
        browser.value("document.querySelector('#again').click()")
        self.wait(browser, "it begins again", f"return document.body.dataset.shown === '{lesson}'")
        browser.value("document.querySelector('#leave').click()")
        self.check(f"{browser.name}: a task is left", browser.value("return document.querySelector('#goal').hidden"), True)
