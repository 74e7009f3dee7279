"""Hostile texts for bench/hostile.sh.

hostile.py PROGRAM [TEXT..]: uploads each of the texts of TEXTS, or those named, and asks for what it means, in a run
of `replay` of its own. Prints one line for each: the status of each question, the seconds of the whole run, and its peak
memory, which isn't told below the 15 MB or so of Python. A line ends in `too much` if a question isn't answered 200,
404 or 422, or if the run takes 2 seconds or 200 MB. The last line counts these. The status is 1 if a question wasn't
answered, or by another status."""
import multiprocessing
import os
import resource
import subprocess
import sys
import tempfile
import time
from functools import partial

from replay_script import Odd, Script, answers, get, put

SECONDS, MEGABYTES = 2, 200
STATUSES = (200, 404, 422)
# a run that takes longer is ended, and one that wants more memory is answered 503
LONGEST, MOST = 120, 4_000_000_000
# each question here is answered within so many turns
TURNS = 1000
LARGEST = 131072


def makefile(path, text):
    if len(text) > LARGEST:
        sys.exit(f"the makefile of {path} has {len(text)} bytes")
    return put(0, f"/ports/{path}/Makefile", text)


def asked(text, name="A"):
    """A makefile, and a question for a variable of it."""
    return [makefile("t/a", text), get(0, f"/v1/var?path=t/a&name={name}")]


def whole(*paths):
    """Questions for the whole tree, and for what these ports are and depend on."""
    targets = ["/v1/list", "/v1/match?spec=a-*", "/v1/faults"]
    for path in paths:
        targets += [f"/v1/port?path={path}", f"/v1/deps?path={path}", f"/v1/deps?path={path}&depth=all"]
        targets += [f"/v1/rdeps?path={path}", f"/v1/rdeps?path={path}&depth=all"]
    return [get(0, target) for target in targets]


def port(name, *lines):
    return "".join(f"{line}\n" for line in (f"DISTNAME = {name}", *lines, ".include <bsd.port.mk>"))


def doubled():
    return asked(f"A = {'x' * 40000}\n" + "A := ${A}${A}\n" * 8) + asked(f"B = {'x' * 40000}\nA = ${{B}}${{B}}\n")


def choices():
    return asked(".if 1\n" * 10000)


def negations():
    return asked(f".if {'!' * 60000}1\nA = x\n.endif\n")


def references():
    return asked(f"A = {'${' * 20000}X{'}' * 20000}\n")


def loops():
    return asked("".join(f".for v{at} in 1 2\n" for at in range(64)) + "A += ${v0}${v63}\n" + ".endfor\n" * 64)


def subpackages():
    names = " ".join(f"-p{at:04}" for at in range(5000))
    return [makefile("t/a", port("a-1", f"MULTI_PACKAGES = {names}", "COMMENT = c", "RUN_DEPENDS = t/a,-p0001")), *whole("t/a")]


def inherited():
    """A list of 1,000 items, which each of 1,000 packages has for its own."""
    names, items = " ".join(f"-p{at:03}" for at in range(1000)), " ".join(["t/b"] * 1000)
    made = port("a-1", f"MULTI_PACKAGES = {names}", f"RUN_DEPENDS = {items}")
    return [makefile("t/a", made), get(0, "/v1/list"), get(0, "/v1/port?path=t/a")]


def directories():
    """A list of 16,000 words: 26 directories with each of 62 flavors, of which one directory is there."""
    letters = "abcdefghijklmnopqrstuvwxyz"
    flavors = f"{letters}{letters.upper()}0123456789"
    words = [f"{letter},{flavor}" for letter in letters for flavor in flavors]
    text = "SUBDIR = " + " ".join(words[at % len(words)] for at in range(16000))
    made = port("a-1", f"FLAVORS = {' '.join(flavors)}")
    return [makefile("t", f"{text}\n.include <bsd.port.subdir.mk>\n"), makefile("t/a", made), *whole("t/a", "t/a,b")]


def all_on_all():
    names = [f"p{at:03}" for at in range(200)]
    needs = " ".join(f"t/{name}" for name in names)
    made = [makefile(f"t/{name}", port(f"{name}-1", f"RUN_DEPENDS = {needs}")) for name in names]
    return [*made, *whole("t/p000", "t/p199")]


def versions():
    """A spec whose version has 20,000 parts, of a port whose version has as many, and differs in the last one."""
    version = "1." * 19999
    needs = port("b-1", f"RUN_DEPENDS = a->={version}1:t/a")
    return [makefile("t/a", port(f"a-{version}2")), makefile("t/b", needs), *whole("t/a", "t/b")]


def stars():
    return asked(f"B = {'a' * 40000}\nA = ${{B:M{'*' * 20000}b}}\n")


def stars_and_letters():
    return asked(f"B = {'a' * 40000}\nA = ${{B:M{'*a' * 10000}b}}\n")


def numeral(number, width):
    """A number to the base 36, with so many digits."""
    digits = "0123456789abcdefghijklmnopqrstuvwxyz"
    return "".join(digits[number // 36**at % 36] for at in reversed(range(width)))


def missing_targets(at, count):
    """A makefile whose items lead to so many paths without a makefile, to which those of no other one lead."""
    items = " ".join(f"{numeral(at, 2)}/{numeral(it, 3)}" for it in range(count))
    half = len(items) // 2
    cut = items.index(" ", half)
    return makefile(f"t/p{at:03}", port(f"p{at:03}-1", f"RUN_DEPENDS = {items[:cut]}", f"BUILD_DEPENDS = {items[cut + 1:]}"))


def without_targets(at):
    return makefile(f"t/p{at:03}", port(f"p{at:03}-1"))


def listed(*stored):
    return [*stored, get(0, "/v1/list")]


def missing():
    """Dependencies on 10,000 paths without a makefile."""
    return listed(missing_targets(0, 10000))


def missing_once():
    """The same makefile, which is then stored without them."""
    return listed(missing_targets(0, 10000)) + listed(without_targets(0))


def missing_in_32():
    """32 such makefiles, 2 MB in all."""
    return listed(*(missing_targets(at, 9000) for at in range(32)))


def missing_in_130():
    """130 such makefiles, nearly all that a tenant may have."""
    return listed(*(missing_targets(at, 9000) for at in range(130)))


TEXTS = (
    doubled, choices, negations, references, loops, subpackages, directories, all_on_all, versions, stars,
    stars_and_letters, missing, missing_once, missing_in_32,
)
# these are too much, as docs/HTTP.md says, so they run only if they are named
TOO_MUCH = (inherited, missing_in_130)


def measured(program, script):
    """Runs a script; returns what it printed, its exit status, its seconds and its peak memory in MB."""
    with tempfile.TemporaryFile() as given, tempfile.TemporaryFile() as out:
        given.write(script.text())
        given.seek(0)
        start = time.monotonic()
        words = ["timeout", str(LONGEST), program, "replay", "alpha"]
        ran = subprocess.Popen(words, stdin=given, stdout=out)
        _, status, used = os.wait4(ran.pid, 0)
        seconds, ran.returncode = time.monotonic() - start, os.waitstatus_to_exitcode(status)
        out.seek(0)
        return out.read().decode(), ran.returncode, seconds, used.ru_maxrss / 1000


def test(program, text):
    """Measures one text, and prints its line; returns whether it is too much, and whether all was answered well."""
    asks = text()
    script = Script(asks, TURNS)
    printed, ended, seconds, megabytes = measured(program, script)
    try:
        given = answers(script, printed)
        statuses = [given[number].status for number, ask in enumerate(asks) if ask.method == "GET"]
        is_stored = all(given[number].status == 200 for number, ask in enumerate(asks) if ask.method == "PUT")
    except Odd as odd:
        print(f"{text.__name__}: {odd}")
        statuses, is_stored = [], False
    is_good = ended == 0 and is_stored and all(status in STATUSES for status in statuses)
    is_over = not is_good or seconds >= SECONDS or megabytes >= MEGABYTES
    shown = " ".join(map(str, statuses)) or f"ended with status {ended}"
    print(f"{text.__name__}: {shown}, {seconds:.2f} s, {megabytes:.0f} MB{', too much' * is_over}", flush=True)
    return is_over, is_good


def main(program, *names):
    resource.setrlimit(resource.RLIMIT_AS, (MOST, MOST))
    texts = [text for text in TEXTS + TOO_MUCH if text.__name__ in names] if names else TEXTS
    # each text in a process of its own, whose memory counts for the run that it starts
    with multiprocessing.Pool(1, maxtasksperchild=1) as pool:
        tested = list(pool.imap(partial(test, program), texts))
    print(f"{len(tested)} hostile texts, {sum(is_over for is_over, _ in tested)} too much")
    return 0 if all(is_good for _, is_good in tested) else 1


if __name__ == "__main__":
    sys.exit(main(*sys.argv[1:]))
