#!/usr/bin/env python3
"""edits.py [--further] [--must-fail] [--minutes N] [NAME..]: tries the edits in crates/NAME/edits, of these crates or of all; with --further also those
in edits/further, which no gate tries, and with --must-fail those in must-fail, which `rt ci` tries. After N minutes no further check begins; each commit
begins with other edits, so that all are tried in turn.

An edit is a wrong body, which the prover has to refuse. `rt ci` tries those in must-fail one by one, each by a check of its whole crate. Here edits of
different functions are made in one copy of their crate, and the functions that they change are checked with those that they call: each is judged by its own
contract, so each has to be refused for itself. One that isn't is tried alone, and at last by a check of its whole crate, as `rt ci` does.

An edit has a line `only: PATH` where its function can't be told by its place. The libraries below are those that `rt ci` or `rt check` has built in this
tree. The last line is 'edits: N refused, M not refused', with the number of those that weren't tried for want of time.
"""
import os, re, shutil, subprocess, sys, tempfile, time
from concurrent.futures import ThreadPoolExecutor

sys.dont_write_bytecode = True
sys.path.insert(0, os.path.dirname(os.path.realpath(shutil.which("rt"))))
import rtlib

TOP = os.path.dirname(os.path.dirname(os.path.abspath(__file__)))
FUNCTION = re.compile(r"^( *)(?:pub(?:\([a-z ]+\))? )?(?:const )?fn (\w+)", re.M)
IMPL = re.compile(r"^impl\b(.*)$", re.M)


def function_at(path, text, place):
    """The function whose code stands at a place of a file, by the end of its path below the crate, and its code; none where none does."""
    before = [it for it in FUNCTION.finditer(text) if it.start() <= place]
    if not before:
        return None, ""
    last = before[-1]
    behind = FUNCTION.search(text, last.end())
    code = text[last.start() : behind.start() if behind else len(text)]
    module = [it for it in path[len("src/") : -len(".rt")].split("/") if it not in ("lib", "main")]
    if not last[1]:
        return "::".join([*module, last[2]]), code
    head = [it for it in IMPL.finditer(text) if it.start() < last.start()][-1][1]
    while re.search(r"<[^<>]*>", head):
        head = re.sub(r"<[^<>]*>", "", head)
    words = head.split("{")[0].split()
    names = [it.split("::")[-1] for it in words if it not in ("for", "where", "dyn")]
    owner = names[0] if "for" not in words else names[words.index("for")] + names[0]
    # (a check names a method by its type, in whichever module it stands)
    return f"{owner}::{last[2]}", code


class Edit:
    def __init__(self, file):
        self.name, self.pairs, self.only, self.code = file, [], set(), ""
        self.folder = file[: re.search(r"/(edits|must-fail)/", file).start()]
        path = old = None
        for line in open(file, encoding="utf-8").read().split("\n"):
            if line.startswith("file: "):
                path = line[len("file: ") :].strip()
            elif line.startswith("only: "):
                self.only.add(line[len("only: ") :].strip())
            elif line.startswith("old: "):
                old = line[len("old: ") :]
            elif line.startswith("new:"):
                self.pairs.append((path, old, line[len("new:") :].removeprefix(" ")))
        for path, old, _ in self.pairs:
            text = open(f"{self.folder}/{path}", encoding="utf-8").read()
            if text.count(old) != 1:
                raise SystemExit(f"{file}: an 'old:' text is in {path} {text.count(old)} times, and not once")
            found, code = function_at(path, text, text.index(old))
            self.code += code
            if found and not any(line.startswith("only: ") for line in open(file, encoding="utf-8")):
                self.only.add(found)

    def calls(self, other):
        """Whether its function calls one that the other edit changes, as far as its code shows: then it can't be judged beside that edit."""
        return any(re.search(rf"\b{it.split('::')[-1]}\(", self.code) for it in other.only - self.only)


def batches(edits):
    """Edits of different functions side by side; of one function, of one that another of them calls, or of none one after another."""
    found = []
    for edit in edits:
        for batch in found:
            if edit.only and batch[0].only and not any(edit.only & it.only or edit.calls(it) or it.calls(edit) for it in batch):
                batch.append(edit)
                break
        else:
            found.append([edit])
    return found


def checked(crate, batch, asked):
    """What a check says of the functions asked for, or of the whole crate, in a copy with the edits of this batch."""
    with tempfile.TemporaryDirectory(prefix="edits-") as room:
        for part in rtlib.PARTS:
            if os.path.isdir(f"{crate.folder}/{part}"):
                shutil.copytree(f"{crate.folder}/{part}", f"{room}/{part}")
        for edit in batch:
            for path, old, new in edit.pairs:
                text = open(f"{room}/{path}", encoding="utf-8").read()
                open(f"{room}/{path}", "w", encoding="utf-8").write(text.replace(old, new))
        flags = ["--jobs", "1", *[word for it in sorted(asked) for word in ("--only", it)]]
        words = [rtlib.RATTLE, "check", *crate.words(flags, keeps=False)]
        return subprocess.run(words, cwd=room, stdin=subprocess.DEVNULL, stdout=subprocess.PIPE, stderr=subprocess.STDOUT, errors="replace")


def refused_by(lines):
    """The functions that a check refused for their own bodies: what calls a function that isn't proved isn't proved either, and that says nothing of it."""
    found = (re.match(r"fn (\S+): (?:not proved|no proof)(?!.*\bit calls\b)", line) for line in lines)
    return {it[1] for it in found if it}


def tried_whole(crate, edit):
    """The words that are said of an edit that the check of its function doesn't refuse; none where the check of its crate does, as `rt ci` has it."""
    ran = checked(crate, [edit], [])
    last = ran.stdout.rstrip("\n").split("\n")[-1]
    if ran.returncode == 1 and last.startswith("logic=not-proved"):
        return None
    return "NOT REFUSED" if ran.returncode == 0 else f"BAD EDIT: {last[:200]}"


def tried(crate, batch):
    """The words that are said of each edit of a batch; none where the prover refuses it."""
    if not batch[0].only:
        return [tried_whole(crate, batch[0])]
    ran = checked(crate, batch, set().union(*(edit.only for edit in batch)))
    lines = ran.stdout.rstrip("\n").split("\n")
    refused = refused_by(lines) if ran.returncode == 1 and re.fullmatch(r"only=\d+ proved=\d+", lines[-1]) else set()
    is_refused = lambda edit: any(name.endswith(f"::{it}") for name in refused for it in edit.only)
    if len(batch) == 1:
        return [None if is_refused(batch[0]) else tried_whole(crate, batch[0])]
    return [None if is_refused(edit) else tried(crate, [edit])[0] for edit in batch]


def turned(tasks):
    """The tasks from another one on at each commit."""
    ran = subprocess.run(["git", "rev-list", "--count", "HEAD"], cwd=TOP, stdout=subprocess.PIPE, text=True)
    first = int(ran.stdout or 0) * 7 % max(len(tasks), 1)
    return tasks[first:] + tasks[:first]


def main(words):
    folders = ["edits"] + ["edits/further"] * ("--further" in words) + ["must-fail"] * ("--must-fail" in words)
    ends, names = None, [it for it in words if not it.startswith("--")]
    if "--minutes" in words:
        ends = time.monotonic() + 60 * float(words[words.index("--minutes") + 1])
        names.remove(words[words.index("--minutes") + 1])
    rtlib.Crate.cuts_libraries = True
    tasks = []
    for crate in rtlib.crates_below(f"{TOP}/crates"):
        if names and crate.name not in names:
            continue
        files = [f"{crate.folder}/{it}/{file}" for it in folders if os.path.isdir(f"{crate.folder}/{it}") for file in sorted(os.listdir(f"{crate.folder}/{it}"))]
        tasks += [(crate, batch) for batch in batches([Edit(it) for it in files if it.endswith(".edit")])]
    # (the largest crates first, so that none of them is left for the end)
    tasks.sort(key=lambda it: -it[0].count(b"\n"))
    tasks = turned(tasks) if ends else tasks
    in_time = lambda crate, batch: tried(crate, batch) if not ends or time.monotonic() < ends else None
    refused = others = left = 0
    with ThreadPoolExecutor(len(os.sched_getaffinity(0))) as pool:
        for (_, batch), told in zip(tasks, pool.map(lambda it: in_time(*it), tasks)):
            left += 0 if told else len(batch)
            for edit, said in zip(batch, told or []):
                refused, others = refused + (not said), others + bool(said)
                if said:
                    print(f"edits: {os.path.relpath(edit.name, TOP)}: {said}", flush=True)
    print(f"edits: {refused} refused, {others} not refused" + f", {left} not tried" * bool(left))
    return 1 if others else 0


if __name__ == "__main__":
    sys.exit(main(sys.argv[1:]))
