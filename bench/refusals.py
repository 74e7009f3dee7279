"""Refuses each growth of memory of several scripts in turn, for bench/refuse-allocations.sh.

refusals.py LIBRARY PROGRAM CASES [SCRIPT..]: runs each script of refusal_scripts.py, or those named, once for n = 1, 2,
3 and so on. LIBRARY is preloaded and refuses the n-th growth of memory. A script is done once a run meets no refusal.
PROGRAM runs the scripts. Each run has to end in one of these ways:

- Each request is answered 503, or as a plain run answers it. The plain run is that of the script without the requests
  that were answered 503, with nothing refused.
- A connection is refused, and the next event isn't allowed. What was printed before is what a plain run prints.
- The status is 1, with the text for want of memory and nothing printed. This is for the growths before those of the
  first request. After them it is for what `replay` records: between a request's growths and those of the next.

CASES is `worked_cases`, which runs the script `kept` as cases, since they say what was spent. A makefile that two
tenants have is evaluated for the first, and the second is answered by what the cache kept. A growth of the cache that is
refused ends no request: both are told their value, and the second one's request spends what it would alone. At least one
run has to end so. A request whose connection is refused is no case.

Prints for each script how many runs ended in each way. At the first run that ends in another it prints that run, and
ends with status 1. The last line has the number of runs with a refusal, and of those that differed."""
import os
import re
import subprocess
import sys
from collections import Counter
from concurrent.futures import ThreadPoolExecutor
from itertools import accumulate, count
from typing import NamedTuple

from refusal_scripts import SCRIPTS
from replay_script import KEYS, Odd, Script, answers

# a request of these scripts is answered within so many turns of its tenant
TURNS = 16
SECONDS = 10
SIDE_BY_SIDE = 2
FAILED = ("HTTP/1.1 503 Service Unavailable\\r\\nContent-Type: application/json\\r\\nContent-Length: 17\\r\\n\\r\\n"
          '{"error":"Store"}')
MEMORY = (1, "", "portsd: out of memory\n")
MAKEFILE = '"/v1/file?name=/ports/a/b/Makefile" "V = 1\\nW = ${V}\\n" => 200 OK "{\\"stored\\":true}"'
VALUE = '"/v1/var?path=a/b&name=W"'
KEPT = f"""new service
service PUT 0 {MAKEFILE}
service PUT 1 {MAKEFILE}
service units 0 {VALUE} => 200 4 0
service units 1 {VALUE} => 200 2 1
"""
PLAIN, FAILING, REFUSED, BEFORE, RECORD, ANEW = WAYS = (
    "plain answers", "with a 503", "connections refused", "out of memory before the run", "out of memory for the record",
    "with plain answers and nothing kept",
)


class Run(NamedTuple):
    """How a run ended, and whether a growth was refused."""
    status: int
    out: str
    err: str
    met: bool


class End(NamedTuple):
    """The way a run ended, and the first request that met the refusal, if one is known to have."""
    way: str
    request: int | None = None


class Program:
    def __init__(self, library, *words):
        self.words, self.library = words, library

    def run(self, text, number=0):
        """Runs the program on a text with this growth refused, or none if the number is 0."""
        read, write = os.pipe()
        env = {"LD_PRELOAD": self.library, "REFUSE": str(number), "MET": str(write)}
        how = {"input": text, "capture_output": True, "timeout": SECONDS, "pass_fds": (write,), "env": env}
        try:
            ran = subprocess.run(self.words, **how)
            status, out, err = ran.returncode, ran.stdout.decode(), ran.stderr.decode()
        except subprocess.TimeoutExpired:
            status, out, err = -1, "", f"it takes more than {SECONDS} seconds"
        os.close(write)
        with open(read, "rb") as met:
            return Run(status, out, err, bool(met.read()))

    def runs(self, text, pool):
        """The runs with the first growth refused, the second, and so on, as long as one is refused."""
        for first in count(1, 32 * SIDE_BY_SIDE):
            numbers = range(first, first + 32 * SIDE_BY_SIDE)
            for number, run in zip(numbers, pool.map(lambda it: self.run(text, it), numbers)):
                if not run.met:
                    return
                yield number, run


def shown(run):
    """A run that is odd, as it is printed."""
    return f"status {run.status}, standard error: {run.err}standard output:\n{run.out}"


def nearest(groups):
    """For each place the last group at or before it, if there is one."""
    return list(accumulate(groups, lambda last, group: last if group is None else group))


class Check:
    """A script's plain answers, and what its refused runs have to give."""

    def __init__(self, program, name, asks):
        self.program, self.name, self.asks = program, name, asks
        self.script = Script(asks, TURNS)
        self.plain_answers = {}
        self.plain_text = program.run(self.script.text()).out
        self.test_plain()

    def test_plain(self):
        """Stops if a plain run gives other bodies than those wanted, or if nothing is under way where it should be."""
        plain = self.plain(frozenset())
        for number, ask in enumerate(self.asks):
            if ask.wanted not in ("", plain[number].body()):
                sys.exit(f"{self.name}: request {number} is answered {plain[number].body()} and not {ask.wanted}")
            if ask.waits and self.told_at(number - 1) < self.script.places[number].opened:
                sys.exit(f"{self.name}: request {number} doesn't wait behind the one before")

    def told_at(self, number):
        """The line of the script at which a plain run tells the reply to a request."""
        conn = self.script.places[number].conn
        return int(re.search(rf"(?m)^(\d+) told \S+ {conn} ", self.plain_text)[1])

    def plain(self, without):
        """The answers of a plain run without these requests."""
        if without not in self.plain_answers:
            script = Script(self.asks, TURNS, without)
            run = self.program.run(script.text())
            if run.status or run.err:
                sys.exit(f"{self.name} without {sorted(without)}: status {run.status}, {run.err}")
            self.plain_answers[without] = answers(script, run.out)
        return self.plain_answers[without]

    def end(self, run):
        """How a run ended; raises Odd if it is none of the ways allowed. Of memory it says no more than that it ran out."""
        if run.status == 0 and not run.err:
            return self.answered(run)
        if run.status == 2:
            return self.refused(run)
        if run[:3] == MEMORY:
            return End(RECORD)
        raise Odd(shown(run))

    def answered(self, run):
        """Compares the answers of a run with those of the plain run without the requests that were answered 503."""
        given = answers(self.script, run.out)
        failed = frozenset(number for number, answer in given.items() if answer.status == 503)
        wanted = self.plain(failed)
        for number in failed:
            if given[number].sent != FAILED or given[number].tenant not in ("-", str(self.asks[number].tenant)):
                raise Odd(f"request {number} is answered {given[number]}")
        rest = [(number, answer) for number, answer in given.items() if number not in failed]
        for told, plain in zip(rest, wanted.items()):
            if told != plain:
                raise Odd(f"without {sorted(failed)}: told {told}\nand plainly   {plain}")
        return End(FAILING, min(failed)) if failed else End(PLAIN)

    def refused(self, run):
        """Tests that a connection was refused, the next event isn't allowed, and all before it is as in a plain run."""
        found = re.search(r"(?m)^(\d+) refused memory\n\Z", run.out)
        line = int(found[1]) if found else 0
        opened = {place.opened: number for number, place in self.script.places.items()}
        before = [it for it in self.plain_text.splitlines() if int(it.split()[0]) < line]
        wanted = f"portsd: line {line + 1}: event not allowed\n"
        if line not in opened or run.out.splitlines()[:-1] != before or run.err != wanted:
            raise Odd(shown(run))
        return End(REFUSED, opened[line])

    def placed(self, ends):
        """The same ends with each run without memory before the growths of the requests, or between those of two.

        Between growths of one request it is odd: that request should have been answered 503."""
        groups = [None if end.request is None else self.script.places[end.request].group for end in ends]
        first = next((at for at, group in enumerate(groups) if group is not None), len(ends))
        before, after = nearest(groups), nearest(groups[::-1])[::-1]
        for at, end in enumerate(ends):
            if end.way == RECORD and at < first:
                yield End(BEFORE)
            elif end.way == RECORD and before[at] == after[at]:
                differs(self.name, at + 1, f"out of memory within request {before[at]} or what waits behind it")
            else:
                yield end

    def test(self, pool):
        """Judges each refused run; returns how many ended in each way."""
        ends = []
        for number, run in self.program.runs(self.script.text(), pool):
            try:
                ends.append(self.end(run))
            except Odd as odd:
                differs(self.name, number, odd)
        return tell(self.name, Counter(end.way for end in self.placed(ends)))


def differs(name, number, why):
    """Ends at a run that is odd."""
    sys.exit(f"{name}, growth {number}: {why}")


def tell(name, ways):
    """Prints how many runs of a script ended in each way, and returns that."""
    told = ", ".join(f"{ways[way]} {way}" for way in WAYS if ways[way])
    print(f"{name}: {sum(ways.values())} growths, each refused in turn: {told}", flush=True)
    return ways


def kept_way(run):
    """How a run of the cases of KEPT ended; raises Odd if it is none of the ways allowed."""
    wrong = dict(re.findall(r"(?m)^standard input:(\d+): (.*), not .*$", run.out))
    lost = re.findall(r"(?m)^standard input:(\d+): no case$", run.out)
    failed = [line for line, given in wrong.items() if given.startswith("503 ")]
    if not wrong and (run.status or len(lost) == len(KEPT.splitlines())):
        return BEFORE
    if not lost and not wrong:
        return PLAIN
    if not lost and wrong == {"5": "200 4 0"}:
        return ANEW
    # (what comes after a file that wasn't stored isn't found, and what wasn't evaluated is)
    follows = all(it in failed or given in ("404 0 0", "200 4 0") for it, given in wrong.items())
    if follows and len(failed) + len(lost) == 1:
        return FAILING if failed else REFUSED
    raise Odd(shown(run))


def test_kept(program, pool):
    """Judges each refused run of the cases of KEPT; returns how many ended in each way."""
    plain = program.run(KEPT.encode())
    if plain.out != "4 cases, 0 differ\n":
        sys.exit(f"kept: {shown(plain)}")
    ways = Counter()
    for number, run in program.runs(KEPT.encode(), pool):
        try:
            ways[kept_way(run)] += 1
        except Odd as odd:
            differs("kept", number, odd)
    if not ways[ANEW]:
        sys.exit("kept: no growth of the cache was refused")
    return tell("kept", ways)


def main(library, program, cases, *names):
    os.nice(10)
    ways = Counter()
    with ThreadPoolExecutor(SIDE_BY_SIDE) as pool:
        if not names or "kept" in names:
            ways += test_kept(Program(library, cases), pool)
        for script in SCRIPTS:
            if not names or script.__name__ in names:
                runner = Program(library, program, "replay", *KEYS)
                ways += Check(runner, script.__name__, script()).test(pool)
    print(f"{sum(ways.values())} growths refused, 0 differences")
    return 0


if __name__ == "__main__":
    sys.exit(main(*sys.argv[1:]))
