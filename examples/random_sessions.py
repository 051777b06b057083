#!/usr/bin/env python3
"""Random session scripts, each made from a number, and the same on every machine.

    random_sessions.py make NUMBER          writes the script that the number makes
    random_sessions.py check FOLDER COUNT   runs the scripts of 1 to COUNT by FOLDER/asio_run, each with 1, 2, 4 and 16
                                            workers in every round, and has FOLDER/asio_check judge each trace and
                                            FOLDER/asio_laws compute its laws

A script is valid by construction: a refusal counts as a failure. Many scripts allow several orders: where a thousand and more
showed none two, on a machine with two processors, that is a failure too. `check` ends with 'N passed, M failed'."""
import os
import re
import subprocess
import sys
from concurrent.futures import ProcessPoolExecutor

WORKERS = (1, 2, 4, 16)

# What a session may be made of, each with its share of the acts: those of postings, of timers, of streams, of all, and of
# sessions that are stopped and restarted.
POSTINGS = {"post": 5, "defer": 3, "dispatch": 5}
TIMERS = {"expires": 4, "expiresat": 2, "wait": 8, "cancel": 2, "cancelone": 2, "emit": 3}
STREAMS = {"readsome": 3, "read": 3, "until": 4, "writesome": 3, "write": 3, "close": 1, "emit": 3}
CONTROL = {"release": 1}
KINDS = (
    POSTINGS,
    {**TIMERS, "post": 3, "dispatch": 2},
    {**STREAMS, "post": 3, "dispatch": 2},
    {**POSTINGS, **TIMERS, **STREAMS, **CONTROL},
    {**POSTINGS, **TIMERS, **CONTROL, "stop": 3},
    {**POSTINGS, **STREAMS, "stop": 2, "wait": 3, "expires": 2},
)
OF_VERSION_2 = ("expiresat",)
# What each act needs one of.
NEEDS = {
    "timers": ("expires", "expiresat", "wait", "cancel", "cancelone"),
    "slots": ("emit",),
    "streams": ("readsome", "read", "until", "writesome", "write", "close"),
    "guards": ("release",),
}
# The bytes that are fed, in which the delimiters are found often.
BYTES = ("61", "62", "0a", "0d0a", "6162", "000a")
DELIMITERS = ("0a", "0d0a", "62", "610a")


class Maker:
    """The script that a number makes."""

    def __init__(self, number):
        self.state = number * 7919 % 2147483646 + 1
        for _ in range(8):
            self.draw(2)
        self.version = 1 + self.draw(2)
        self.acts = self.draw(200) if self.draw(40) == 0 else 2 + self.draw(30)
        self.declared = {
            "strands": self.draw(5),
            "timers": self.draw(4),
            "slots": self.draw(4),
            "streams": self.draw(4),
            "guards": self.draw(3) if self.draw(3) == 0 else 0,
        }
        kind = KINDS[self.draw(len(KINDS))]
        self.share = {
            act: share
            for act, share in kind.items()
            if (self.version == 2 or act not in OF_VERSION_2)
            and all(self.declared[what] > 0 for what, acts in NEEDS.items() if act in acts)
        }
        if not self.share:
            self.share = dict(POSTINGS)

    def draw(self, below):
        """A number below another one, by the generator of Park and Miller."""
        self.state = self.state * 16807 % 2147483647
        return self.state * below // 2147483647

    def among(self, choices):
        return choices[self.draw(len(choices))]

    def number_of(self, what):
        return str(self.draw(self.declared[what]))

    def act_word(self):
        at = self.draw(sum(self.share.values()))
        for act, share in self.share.items():
            if at < share:
                return act
            at -= share

    def lane(self):
        strands = self.declared["strands"]
        return "-" if strands == 0 or self.draw(4) == 0 else self.number_of("strands")

    def plug(self):
        if self.declared["slots"] == 0 or self.draw(2) == 0:
            return "-"
        only = f" only {self.draw(8)}" if self.version == 2 and self.draw(3) == 0 else ""
        return self.number_of("slots") + only

    def data(self, most):
        return "x" + "".join(self.among(BYTES) for _ in range(1 + self.draw(most)))

    def bodies(self, depth):
        """The branches of an operation: mostly the first alone."""
        text = self.body(depth)
        if self.draw(4) == 0:
            text += " abort " + self.body(depth)
        if self.draw(6) == 0:
            text += " other " + self.body(depth)
        return text

    def body(self, depth):
        many = 0 if depth >= 6 else self.among((0, 0, 1, 1, 2, 3))
        return self.braced(self.act(depth) for _ in range(many) if self.acts > 0)

    @staticmethod
    def braced(acts):
        return " ".join(["{", *acts, "}"])

    def act(self, depth):
        self.acts -= 1
        act = self.act_word()
        if act in POSTINGS:
            return f"{act} {self.lane()} {self.body(depth + 1)}"
        if act in ("expires", "expiresat"):
            return f"{act} {self.number_of('timers')} {self.draw(12)}"
        if act in ("cancel", "cancelone"):
            return f"{act} {self.number_of('timers')}"
        if act == "emit":
            return f"emit {self.number_of('slots')} {self.draw(8)}"
        if act == "close":
            return f"close {self.number_of('streams')}"
        if act == "release":
            return f"release {self.number_of('guards')}"
        if act == "stop":
            return "stop"
        return f"{self.asked(act)} {self.lane()} {self.plug()} {self.bodies(depth + 1)}"

    def asked(self, act):
        """What a wait or an operation on a stream is asked for."""
        if act == "wait":
            return f"wait {self.number_of('timers')}"
        stream = self.number_of("streams")
        if act in ("readsome", "read"):
            return f"{act} {stream} {1 + self.draw(8)}"
        if act == "until":
            return f"until {stream} x{self.among(DELIMITERS)} {1 + self.draw(9)}"
        return f"{act} {stream} {self.data(4)}"

    def world_line(self):
        stream = self.number_of("streams")
        happens = self.draw(12)
        if happens < 5:
            what = f"feed {stream} {self.data(5)}"
        elif happens < 10:
            what = f"room {stream} {1 + self.draw(6)}"
        else:
            what = f"{self.among(('end', 'reset'))} {stream}"
        return f"at {self.draw(15)} {what}"

    def opened(self):
        """The acts of `open`. Each guard is released by one of them or by a posting's: else `run` might wait for ever."""
        acts = [self.act(1) for _ in range(1 + self.draw(6)) if self.acts > 0]
        while self.acts > 0 and self.draw(8) > 0:
            acts.append(self.act(1))
        for guard in range(self.declared["guards"]):
            release = f"release {guard}"
            if self.draw(3) > 0:
                release = f"{self.among(tuple(POSTINGS))} {self.lane()} {{ {release} }}"
            acts.insert(self.draw(len(acts) + 1), release)
        return acts

    def rounds(self):
        texts = []
        for _ in range(self.among((1, 1, 2, 2, 3, 5))):
            restart = "restart " if self.draw(2) == 0 else ""
            texts.append(f"{restart}{self.among(('run', 'run', 'poll'))} {1 + self.draw(16)}")
        return texts

    def script(self):
        head = f"session {self.version}"
        for what, count in self.declared.items():
            if count > 0:
                head += f" {what} {count}"
        lines = []
        if self.declared["streams"] > 0:
            lines = [self.world_line() for _ in range(self.draw(9))]
        return "\n".join([head, *lines, "open " + self.braced(self.opened()), *self.rounds()]) + "\n"


def output_of(command, text):
    """What a program writes, which has to end well."""
    ran = subprocess.run(command, input=text, capture_output=True, timeout=60, check=False)
    if ran.returncode != 0:
        raise RuntimeError(f"ends with {ran.returncode}: {ran.stderr.decode().strip()}")
    return ran.stdout


def legal_trace(folder, text):
    """The trace of a script, which has to be that of a legal history."""
    trace = output_of([f"{folder}/asio_run", "run"], text)
    history = text + b"--\n" + trace
    verdict = output_of([f"{folder}/asio_check"], history)
    if verdict != b"legal\n":
        raise RuntimeError(f"is judged {verdict.decode().strip()}")
    if output_of([f"{folder}/asio_laws"], history) != b"kept\n":
        raise RuntimeError("breaks a law")
    return trace


def checked(task):
    """What is wrong with the script that a number makes, and how many orders were seen of it."""
    folder, number = task
    script = Maker(number).script()
    faults = []
    traces = set()
    for workers in WORKERS:
        text = re.sub(r"\b(run|poll) \d+", rf"\1 {workers}", script)
        try:
            traces.add(legal_trace(folder, text.encode()))
        except (RuntimeError, subprocess.TimeoutExpired) as wrong:
            faults.append(f"random_sessions: script {number} with {workers} workers: {wrong}")
    return faults, len(traces)


def check(folder, count):
    failed = 0
    several = 0
    with ProcessPoolExecutor(os.cpu_count()) as pool:
        for faults, orders in pool.map(checked, [(folder, number) for number in range(1, count + 1)], chunksize=20):
            failed += len(faults)
            several += orders > 1
            for fault in faults:
                print(fault)
    print(f"random_sessions: more than one order was seen of {several} of {count} scripts")
    passed = count * len(WORKERS) - failed
    if count >= 1000 and os.cpu_count() > 1:
        passed += several > 0
        failed += several == 0
    print(f"random_sessions: {passed} passed, {failed} failed")
    return failed == 0


def main():
    words = sys.argv[1:]
    if len(words) == 2 and words[0] == "make":
        sys.stdout.write(Maker(int(words[1])).script())
    elif len(words) == 3 and words[0] == "check":
        sys.exit(0 if check(words[1], int(words[2])) else 1)
    else:
        sys.exit(__doc__)


if __name__ == "__main__":
    main()
