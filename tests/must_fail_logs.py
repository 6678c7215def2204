#!/usr/bin/env python3
"""Tells fact from form in what the prover says of the must-fail edits (docs/READING-THE-PROOFS.md, section 7).

Of each crates/CRATE/must-fail/LABEL.edit the first error has to say that a fact fails. An error that only says that the proof no longer
fits the code's shape shows nothing: a right program of another shape would meet it too. A wording that is not known here fails as well,
so that somebody looks at it.

    tests/must_fail_logs.py SAID           behind `rt ci` or `rt must-fail`, in the repository: the file SAID has what it printed
    tests/must_fail_logs.py --whole [CRATE | CRATE/LABEL]..    with no such file: tries these edits, or all, and prints what it takes each for
    tests/must_fail_logs.py --self-test    tells some small logs apart instead

rt prints of an edit the beginning of one line. Where that does not show a fact, the edit is tried once more, by `rt check` in a copy of the
crates outside the repository, and the whole log is looked at.
"""
import concurrent.futures
import contextlib
import os
import pathlib
import queue
import re
import shutil
import subprocess
import sys
import tempfile

# Form, or nothing that one could tell by; looked for first.
FORM = [
    r"`(rw|simp|grw)`: no (occurrence|part|equation)|rewrites nothing",  # a rewrite no longer finds its term
    r"has no `[^`]*`|has no field|not in scope|is private|that can be named|projects from a record|cannot be unfolded",  # other names, other goals
    r"cannot continue|was not expected|more patterns|arguments? more than|no clause covers",  # it does not parse, or has other arguments
    r"is not admitted|not (yet )?determined|broke off|step limit|gave up|ran out of",  # it was not decided
    r"\A(?!.*as printed, the two types differ only).*what the two types compute to is not shown",  # two types too long to compare
]

# Fact: the log shows a number, a value or a statement that fails.
FACT = [
    r"`(omega|grind)`: the (goal|part `[^`]*` of the goal) does not follow.*(the goal|the part|it) fails( at|, at|\.)",  # numbers at which it fails
    r"computed as far as they go, the two (types|sides|indices) (are|differ|first differ)",  # one thing is asked for, and another is there
    r"as printed, the two types differ only where",
    r"expected type `[^…`]*`,?\s+but this has type `[^…`]*`",  # the same, where both are shown whole
    r"`[^…`]*`\s+≟ `[^…`]*`:?\s+does not hold",
    r"what it leaves must be a path whose two ends are equal",  # an equation is left when all is rewritten
    r"it is not proved that .*the facts known there allow values at which this goal is false",  # the prover's own search has found them
]

# The same in what rt prints of an edit, of which it leaves out what comes behind 160 bytes.
SHOWN = [
    r"error: (`[^`]*`: )?computed as far as they go, the two (types|sides|indices) (are|differ|first differ)",
    r"error: (`[^`]*`: )?as printed, the two types differ only where",
    r"error: (`[^`]*`: )?expected type `[^…`]*`, but this has type `[^…`]*`",
    r"error: (`[^`]*`: )?give a proof of that as the last argument, `rw L t`",  # (what `rw` leaves stands in the line behind)
    r"error: (`[^`]*`: )?`(omega|grind)`: the (goal|part `[^`]*` of the goal) does not follow from what it read\. All of that holds, and",  # (.. it fails, at ..)
    r"it is not proved that .*the facts known there allow values at which",
]

AS_IT_MUST = "refused, as it must be"


def first_error(log):
    """The first error that is no consequence of another, with its indented lines; where there is none, what is said first of a goal that
    nobody answers and the prover's own search does not prove."""
    lines = log.splitlines()
    starts = [i for i, line in enumerate(lines) if re.match(r"\S+:\d+:\d+: error: ", line) and not re.search(r"was not (admitted|checked)", line)]
    if not starts:
        starts = [i for i, line in enumerate(lines) if re.match(r"note: \S+:\d+:\d+: it is not proved that ", line)]
    if not starts:
        return ""
    end = starts[0] + 1
    while end < len(lines) and lines[end].startswith("  "):
        end += 1
    return "\n".join(lines[starts[0]:end])


def fault(log):
    """What is wrong with a log, or None where a fact fails."""
    error = first_error(log)
    if not error:
        return "no error"
    for wordings, said in ((FORM, "form alone"), (FACT, None)):
        if any(re.search(w, error, re.DOTALL) for w in wordings):
            return said
    return "a wording that is not known"


def told(line):
    """What rt's line on an edit shows: "fact", "open" where the whole log has to say it, or what is wrong."""
    before, as_it_must, rest = line.partition(AS_IT_MUST)
    if not as_it_must:
        return line[:400] or "rt says nothing of it"
    for words, said in ((" (only because a proof file names", "form alone"), (" (only by a limit", "no verdict within the prover's limits")):
        if rest.startswith(words):
            return said
    return "fact" if any(re.search(w, rest) for w in SHOWN) else "open"


def self_test():
    def of(text):
        return (f"note: a note\n./p.antt:1:1: error: 1 declaration that depends on `r`, which was not admitted, was not checked: s\n"
                f"./p.antt:9:13: error: `r`: {text}\n")

    def note(text):
        return f"fn f: proved\nnote: src/a.rt:1:1: it is not proved that what the function ensures holds when it returns (`returns`){text}\n"

    cases = [
        (of("`omega`: the goal does not follow from what it read. All of that holds, and the goal fails, at `n` = 65."), None),
        (of("`omega`: the part `c'` of the goal does not follow from what it read. All of that holds, and it fails, at `n` = 65."), None),
        (of("`omega`: the goal does not follow from what it read. A fact that it needs may stand in no hypothesis"), "a wording that is not known"),
        (of("`grind`: the goal does not follow. The hypotheses hold, and the goal fails at `n` = `0`"), None),
        (of("expected type `L n k ≡ false`, but this has type `L n k ≡ L n k`"), None),
        (of("give a proof of that as the last argument\n  `rw` has no last argument, so what it leaves must be a path whose two ends are equal"), None),
        (of("as printed, the two types first differ where one has `a`\n  computed as far as they go, the two types differ only where"), None),
        (note("; the facts known there allow values at which this goal is false"), None),
        (note(""), "a wording that is not known"),
        (note("; the facts known there allow values at which this goal is false") + of("`G` has no `returns-7` that can be named from here"), "form alone"),
        (of("`rw`: no part of the goal `a` is an instance of `b`") + of("expected type `0 ≡ 1`, but this has type `0 ≡ 0`"), "form alone"),
        (of("expected type `a`\n  but this has type `b`\n  what the two types compute to is not shown, because"), "form alone"),
        (of("as printed, the two sides first differ where one has `a…b`\n  ≟ `c…d`\n  does not hold (this comparison"), "a wording that is not known"),
        (of("something else"), "a wording that is not known"),
        ("logic=proved\n", "no error"),
    ]
    for log, said in cases:
        if fault(log) != said:
            sys.exit(f"must-fail logs: the self-test takes this for {fault(log)}, and not for {said}:\n{log}")
    refused = f"rt: must-fail c/e.edit: {AS_IT_MUST}"
    lines = [
        (f"{refused}: ./p.antt:9:13: error: `r`: computed as far as they go, the two types differ only where one has `1", "fact"),
        (f"{refused}: note: src/a.rt:1:1: it is not proved that it holds (`r`); the facts known there allow values at which this g", "fact"),
        (f"{refused}: ./p.antt:9:13: error: `r`: `omega`: the goal does not follow from what it read. All of that holds, and the go", "fact"),
        (f"{refused}: ./p.antt:9:13: error: `r`: `omega`: the goal does not follow from what it read. A fact that it needs may sta", "open"),
        (f"{refused}: note: src/a.rt:1:1: it is not proved that it holds (`r`)", "open"),
        (f"{refused}: ./p.antt:9:13: error: `r`: as printed, the two types first differ where one has", "open"),
        (f"{refused}: ./p.antt:9:13: error: `r`: expected type `0 ≡ 1`, but this has type `0 ≡ 0`", "fact"),
        (f"{refused}: ./p.antt:9:13: error: `r`: expected type `0 ≡ 1`, but this has type `0 ≡", "open"),
        (f"{refused}", "open"),
        (f"{refused} (only because a proof file names what the edit took away, so this says little: ./p.antt:9:13: error: `r`", "form alone"),
        (f"{refused} (only by a limit of the prover, which gave no verdict): p.antt", "no verdict within the prover's limits"),
        ("rt: must-fail c/e.edit: BAD EDIT: there is no file p", "rt: must-fail c/e.edit: BAD EDIT: there is no file p"),
        ("rt: must-fail c/e.edit: NOT REFUSED: the crate is still proved", "rt: must-fail c/e.edit: NOT REFUSED: the crate is still proved"),
        ("", "rt says nothing of it"),
    ]
    for line, said in lines:
        if told(line) != said:
            sys.exit(f"must-fail logs: the self-test takes this for {told(line)}, and not for {said}:\n{line}")
    print(f"must-fail logs: {len(cases)} small logs and {len(lines)} lines told apart")


def edited(edit, crate):
    """Makes an edit in a crate, and gives the files that it changed, as they were."""
    were, path, old = {}, None, None
    for line in edit.read_text(encoding="utf-8").split("\n"):
        if line.startswith("file: "):
            path = crate / line[len("file: "):].strip()
        elif line.startswith("old: "):
            old = line[len("old: "):]
        elif line.startswith("new:"):
            text = path.read_text(encoding="utf-8")
            were.setdefault(path, text)
            if text.count(old) != 1:
                raise ValueError(f"an `old:` text stands in {path.name} {text.count(old)} times")
            path.write_text(text.replace(old, line[len("new:"):].removeprefix(" ")), encoding="utf-8")
    return were


def logs(edits):
    """The logs of these edits, by their paths: of as many side by side as there are processors and memory, those of a crate one after another."""
    with open("/proc/meminfo", encoding="ascii") as file:
        memory = int(re.search(r"MemAvailable: +(\d+) kB", file.read())[1])
    lanes = max(1, min(len(os.sched_getaffinity(0)), memory // 4_000_000, len({edit.parts[1] for edit in edits})))
    found, copies = {}, queue.SimpleQueue()

    def tried(crate):
        copy = copies.get()
        try:
            for edit in edits:
                if edit.parts[1] != crate:
                    continue
                were = {}
                try:
                    were = edited(edit, copy / "crates" / crate)
                    ran = subprocess.run(["rt", "check", "--jobs", "1"], cwd=copy / "crates" / crate, stdin=subprocess.DEVNULL,
                                         stdout=subprocess.PIPE, stderr=subprocess.STDOUT, text=True, errors="replace")
                    found[edit] = "" if ran.returncode == 0 else ran.stdout
                except (ValueError, OSError) as error:
                    found[edit] = f"edit: {error}"
                for path, text in were.items():
                    path.write_text(text, encoding="utf-8")
        finally:
            copies.put(copy)

    with contextlib.ExitStack() as held:
        for _ in range(lanes):
            copy = pathlib.Path(held.enter_context(tempfile.TemporaryDirectory(prefix="must-fail-logs-")))
            shutil.copytree("crates", copy / "crates", ignore=lambda at, names: ["out"] if os.path.dirname(at) == "crates" else [])
            for name in ("crates.txt", "HANDLES"):
                if os.path.exists(name):
                    shutil.copy(name, copy)
            copies.put(copy)
        with concurrent.futures.ThreadPoolExecutor(lanes) as pool:
            for job in [pool.submit(tried, crate) for crate in sorted({edit.parts[1] for edit in edits})]:
                job.result()
    return found


def main(words):
    edits = sorted(pathlib.Path("crates").glob("*/must-fail/*.edit"))
    if words[0] == "--whole":
        edits = [edit for edit in edits if not words[1:] or edit.parts[1] in words or f"{edit.parts[1]}/{edit.stem}" in words]
        shown = dict.fromkeys(edits, "open")
    else:
        said = {}
        for line in pathlib.Path(words[0]).read_text(encoding="utf-8", errors="replace").splitlines():
            if found := re.match(r"rt: must-fail (\S+): ", line):
                said[found[1]] = line
        shown = {edit: told(said.get(f"{edit.parts[1]}/{edit.name}", "")) for edit in edits}
    whole = logs([edit for edit in edits if shown[edit] == "open"])
    faults = 0
    for edit in edits:
        what = fault(whole[edit]) if edit in whole else None if shown[edit] == "fact" else shown[edit]
        if what:
            faults += 1
            error = first_error(whole.get(edit, "")) or whole.get(edit, "")[-600:]
            print(f"must-fail {edit.parts[1]}/{edit.stem}: {what}: {error[:600]}")
    if faults or not edits:
        sys.exit(f"must-fail logs: {faults} of {len(edits)} edits are not refused for a fact")
    print(f"must-fail logs: {len(edits)} refused for a fact, {len(whole)} of them by their whole logs")


if __name__ == "__main__":
    if len(sys.argv) < 2 or sys.argv[1] != "--whole" and len(sys.argv) > 2:
        sys.exit(__doc__)
    self_test() if sys.argv[1] == "--self-test" else main(sys.argv[1:])
