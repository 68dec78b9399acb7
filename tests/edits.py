#!/usr/bin/env python3
"""Tries the edits that the prover must refuse, several in one check, and the controls, which it must prove.

    tests/edits.py [--all | --tenth] [--only PATTERN] [--jobs N] [CRATE..]

It tries the edits of more-edits/ and the controls, with --all also the edits of must-fail/. With --tenth it tries a
tenth of them, another one for each commit. With --apply it proves nothing: it only looks whether each edit and control
can be applied. It ends with 'N passed, N failed, N skipped'.

A function is proved against its own contract and those of the functions that it calls, so edits of different functions
can be tried together: one check of a copy of the crate, in which each edited function must be refused by itself. Edits
of more than one file, and of text that is in no function, are tried alone; so is each edit that is not refused beside
others. A control (the text after `# right:` in the file of an edit) is a right body in the place of the edit and of its
shape: that it is proved shows that the edit is refused for what it means.

It runs `rt check` in the folder of the crate, and then in copies of the crate and those below it, each with what was
kept in out/: the proofs of the crate, and the libraries below it.
"""
import argparse
import collections
import concurrent.futures
import contextlib
import itertools
import os
import pathlib
import re
import resource
import shutil
import subprocess
import sys
import tempfile

sys.dont_write_bytecode = True
from common import TOP, Tally, tell
from edit_files import count, edits_in, functions_of, misplaced, short

TOGETHER = 10  # edits in one check
# Errors of a proof file that only say that the edit took a name away.
NAMES = re.compile(r"has no field|is not a field|is not in scope|has no `|was not admitted|there is no goal|no goal ")
WEIGHTS = ("values", "term", "search", "name")

Outcome = collections.namedtuple("Outcome", "edit is_good text shows_little", defaults=[False])


class Report:
    """What a check says: for each function, and for the crate, what is not proved."""

    def __init__(self, crate, texts, ran):
        self.status, self.lines = ran.returncode, ran.stdout.rstrip("\n").split("\n")
        self.is_verdict = self.status == 0 or self.status == 1 and re.search(r"(?m)^logic=not-proved", ran.stdout)
        self.texts, self.crate, self.told = texts, crate, collections.defaultdict(list)
        # A function is also proved by itself if only one that it calls is not.
        self.proved = {short(it) for it in re.findall(r"(?m)^fn (\S+): (?:proved$|no proof: it calls )", ran.stdout)}
        # An error may go on in lines that are indented.
        for line in re.sub(r"\n +", " ", "\n".join(self.lines)).split("\n"):
            self.read(line)

    def read(self, line):
        proof = re.match(r"(?:note: )?(?:\./)?proofs/(\S+)/\w+\.antt:\d+:\d+: (?:error: )?(.*)", line)
        law = re.match(r"(?:note: |so far: )?(?:\./)?specs/(\S+)\.antt:\d+:\d+: error: (.*)", line)
        code = re.match(r"(?:note: )?(?:\./)?(src/\S+?):(\d+):\d+: (.*)", line)
        if proof and ("error: " in line or "not admitted" in line):
            function = short("::".join([self.crate.name, *proof[1].split("/")]))
            is_name = NAMES.search(line) and "no proof of" not in line
            self.told[function].append(("name" if is_name else "term", proof[2]))
        elif law and not NAMES.search(line) and "depend" not in line:
            self.told[f"specs/{law[1]}"].append(("term", law[2]))
        elif code and re.search(r"it is not proved|found no proof|: error", line):
            self.told[self.function_at(code[1], int(code[2]) - 1)].append((
                "values" if "allow values" in line else "search", code[3]))

    def function_at(self, file, line):
        text = self.texts.get(file) or (self.crate / file).read_text()
        inside = [it.path for it in functions_of(self.crate, file, text) if it.first <= line <= it.last]
        return inside[0] if inside else file

    def refusal(self, functions):
        """Returns how much the refusal of these functions, or of any, shows, and its first goals, or None."""
        told = [it for function in functions or self.told for it in self.told.get(function, [])]
        told.sort(key=lambda it: WEIGHTS.index(it[0]))
        goals = list(dict.fromkeys(goal_in(text) for _, text in told))
        return (told[0][0], ", ".join(goals[:3])) if told else None


def goal_in(text):
    goal = re.search(r"\(`([^`]+)`\)", text) or re.search(r"^`([^`]+)`:", text)
    return goal[1] if goal else text[:100]


def batches_of(edits):
    """Splits the edits of a crate into lists that are tried together: no two change one function or one text."""
    batches, alone = [], []
    for edit in edits:
        if edit.is_alone():
            alone.append([edit])
            continue
        for batch, texts in batches:
            more = dict(texts)
            fits = len(batch) < TOGETHER and not any(edit.functions & it.functions for it in batch)
            if fits and edit.apply(more):
                batch.append(edit)
                texts.update(more)
                break
        else:
            texts = {}
            edit.apply(texts)
            batches.append(([edit], texts))
    return [batch for batch, _ in batches] + alone


class Prover:
    """Checks copies of one crate, each over what a check of the crate as it stands proved."""

    def __init__(self, name, jobs):
        began = seconds()
        self.name, self.folder, self.below = name, TOP / "crates" / name, {}
        uses = re.findall(r"(?m)^((\w+)(?: staticlib)?:(.*))$", (TOP / "crates.txt").read_text())
        uses = {name: (line, words.split()) for line, name, words in uses}
        wanted = [name]
        for it in wanted:
            if it in uses and it not in self.below:
                self.below[it] = uses[it][0]
                wanted += uses[it][1]
        if checked(self.folder, jobs).returncode:
            raise SystemExit(f"{name} is not proved as it stands")
        self.spent = seconds() - began
        print(f"{name}: proved as it stands ({self.spent:.0f} s)", flush=True)

    def copy(self, top, texts):
        """Copies the crate with other texts in some files, and the crates below it, each with what its check kept."""
        pathlib.Path(top, "crates.txt").write_text("".join(f"{line}\n" for line in self.below.values()))
        for name in self.below:
            for part in ("src", "specs", "proofs"):
                if (TOP / "crates" / name / part).is_dir():
                    shutil.copytree(TOP / "crates" / name / part, f"{top}/crates/{name}/{part}")
            kept = "out/incremental" if name == self.name else "out/rlib"
            shutil.copytree(TOP / "crates" / name / kept, f"{top}/crates/{name}/{kept}", copy_function=linked)
        for file, text in texts.items():
            pathlib.Path(top, "crates", self.name, file).write_text(text)

    def check(self, edits):
        texts = {}
        if not all(edit.apply(texts) for edit in edits):
            return None
        with free_folder() as top:
            self.copy(top, texts)
            return Report(self.folder, texts, checked(f"{top}/crates/{self.name}", 1))


def checked(folder, jobs):
    """Runs `rt check` in the folder of a crate."""
    how = {"stdin": subprocess.DEVNULL, "stdout": subprocess.PIPE, "stderr": subprocess.STDOUT}
    return subprocess.run(["rt", "check", "--jobs", str(jobs)], cwd=folder, text=True, errors="replace", **how)


def linked(one, other):
    """Links a proof that is kept, which a check replaces and never changes, and copies any other file.

    A proof that a check has removed meanwhile is left out: it is proved once more.
    """
    if not one.endswith(".oantt"):
        return shutil.copy2(one, other)
    try:
        os.link(one, other)
    except OSError:
        with contextlib.suppress(FileNotFoundError):
            shutil.copy2(one, other)


@contextlib.contextmanager
def free_folder():
    """A folder that no other run has. The next runs take the same few names: `rt` notes in which folders it checked."""
    for number in itertools.count():
        top = pathlib.Path(tempfile.gettempdir(), f"edits-{os.getuid()}-{number}")
        try:
            top.mkdir()
        except FileExistsError:
            continue
        break
    try:
        yield top
    finally:
        shutil.rmtree(top, ignore_errors=True)


def outcome_of(edit, report, is_alone):
    """Returns what a check says of an edit, or None where it has to be tried alone."""
    if report is None or not report.is_verdict:
        said = next((it for it in report.lines if "error" in it), report.lines[-1])[:160] if report else ""
        return Outcome(edit, False, f"NOT TRIED: {said}") if is_alone else None
    refusal = report.refusal(edit.functions - {None} or None)
    weight, goal = refusal or report.refusal(None) or ("search", "")
    if edit.is_control:
        if report.status == 0 or edit.functions <= report.proved:
            return Outcome(edit, True, "proved")
        return Outcome(edit, False, f"NOT PROVED: {goal} ({weight})") if is_alone else None
    if refusal:
        # Where only names are missing, nothing is known of the contract.
        said = "REFUSED FOR NAMES ALONE" if weight == "name" else "refused"
        return Outcome(edit, weight != "name", f"{said}: {goal} ({weight})")
    if not is_alone:
        return None
    if report.status == 0:
        return Outcome(edit, False, "NOT REFUSED")
    if not report.told:
        # The borrow checker, for example, refuses a body that may be right.
        return Outcome(edit, False, f"REFUSED AT NO GOAL: {report.lines[-1][:160]}")
    elsewhere = f"refused only in {', '.join(sorted(report.told))}: {goal} ({weight})"
    return Outcome(edit, weight != "name", elsewhere, True)


def seconds():
    used = resource.getrusage(resource.RUSAGE_CHILDREN)
    return used.ru_utime + used.ru_stime


def try_crate(prover, edits, jobs):
    """Tries the edits and controls of a crate, and returns what came of each, and the processor seconds."""
    began, found, name = seconds() - prover.spent, [], prover.name
    rest = [it for kind in (False, True) for it in batches_of([e for e in edits if e.is_control == kind])]
    with concurrent.futures.ThreadPoolExecutor(jobs) as pool:
        while rest:
            again = []
            for batch, report in zip(rest, pool.map(prover.check, rest)):
                keep_output(name, batch, report)
                for edit in batch:
                    outcome = outcome_of(edit, report, len(batch) == 1)
                    if outcome:
                        found.append(outcome)
                        print(f"  {edit.label}{' (control)' * edit.is_control}: {outcome.text}", flush=True)
                    else:
                        again.append([edit])
            rest = again
    return found, seconds() - began


def keep_output(name, batch, report):
    """Keeps what the check said, to be read: a control has the name of its edit, so their folders are apart."""
    folder = TOP / "tests/out/edits" / ("controls" if batch[0].is_control else "edits")
    folder.mkdir(parents=True, exist_ok=True)
    if report:
        (folder / f"{name}-{'-'.join(it.name for it in batch)[:100]}.txt").write_text("\n".join(report.lines))


def main():
    options = argparse.ArgumentParser(description=__doc__.partition("\n")[0])
    options.add_argument("--all", action="store_true", help="also the edits of must-fail/")
    options.add_argument("--tenth", action="store_true", help="a tenth of them, by the number of commits")
    options.add_argument("--only", metavar="PATTERN", default="", help="only those with such a name, as find|text")
    options.add_argument("--jobs", metavar="N", type=int, default=1, help="how many checks to run side by side")
    options.add_argument("--apply", action="store_true", help="prove nothing")
    options.add_argument("crates", nargs="*", metavar="CRATE")
    given = options.parse_args()
    edits = edits_in(TOP)
    wrong = list(misplaced(edits))
    if given.apply:
        count(edits)
        return tell(wrong, len(edits), 300)
    chosen, tally = collections.defaultdict(list), Tally(1)
    of_turn = tenth(edits, tally) if given.tenth else {it.label for it in edits}
    for edit in edits:
        is_asked = edit.label in of_turn and (given.all or edit.kind != "must-fail")
        is_named = re.search(given.only, edit.name) and edit.crate.name in (given.crates or [edit.crate.name])
        if is_asked and is_named:
            if edit.why:
                tally.add(edit.label, edit.why)
            else:
                chosen[edit.crate.name].append(edit)
    # A check writes into the folders of all crates below: no copy is made of one before the last of them is over.
    provers = [Prover(name, given.jobs) for name in chosen]
    with concurrent.futures.ProcessPoolExecutor(min(given.jobs, max(len(chosen), 1))) as pool:
        jobs = max(given.jobs // max(len(chosen), 1), 1)
        tried = {it.name: pool.submit(try_crate, it, chosen[it.name], jobs) for it in provers}
        table({name: it.result() for name, it in tried.items()}, tally)
    return tally.end()


def tenth(edits, tally):
    """The names of a tenth of the edits of more-edits/ and the controls: the one whose turn it is at this commit."""
    labels = sorted({it.label for it in edits if it.kind != "must-fail"})
    commits = "0"
    if tally.has("git") and (TOP / ".git").exists():
        ran = subprocess.run(["git", "-C", TOP, "rev-list", "--count", "HEAD"], capture_output=True, text=True)
        if ran.returncode:
            tally.lack(f"git does not count the commits: {ran.stderr.strip()}")
        commits = ran.stdout or commits
    turn = int(commits) % 10
    first, last = (len(labels) * number // 10 for number in (turn, turn + 1))
    print(f"tenth {turn + 1} of 10, by the number of commits: {labels[first]} to {labels[last - 1]}", flush=True)
    return set(labels[first:last])


def table(tried, tally):
    """Prints what came of each crate, and of each edit that failed or shows little, and counts them."""
    print(f"\n{'crate':<12}{'edits':>6}{'refused':>8}{'controls':>9}{'proved':>7}{'seconds':>9}")
    for name, (found, spent) in tried.items():
        sorts = [[it for it in found if it.edit.is_control == kind] for kind in (False, True)]
        counts = [it for sort in sorts for it in (len(sort), sum(outcome.is_good for outcome in sort))]
        print(f"{name:<12}{counts[0]:>6}{counts[1]:>8}{counts[2]:>9}{counts[3]:>7}{spent:>9.0f}")
    for found, _ in tried.values():
        for it in found:
            label = f"{it.edit.label}{' (control)' * it.edit.is_control}"
            if it.is_good:
                tally.passed += 1
                if it.shows_little:
                    print(f"{label}: {it.text}")
            else:
                tally.add(label, it.text)


if __name__ == "__main__":
    sys.exit(main())
