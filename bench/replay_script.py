"""Scripts of `portsd replay`, for bench/refusals.py and bench/hostile.py: each request on a connection of its own."""
import re
from typing import NamedTuple

KEYS = ("alpha", "beta")


class Ask(NamedTuple):
    """A request of a tenant. If `waits` is so, it is sent once the request before it has had a turn."""
    tenant: int
    method: str
    target: str
    body: str = ""
    wanted: str = ""
    waits: bool = False


def put(tenant, name, body, waits=False):
    """The upload of a file."""
    return Ask(tenant, "PUT", f"/v1/file?name={name}", body, '{"stored":true}', waits)


def get(tenant, target, wanted=""):
    """A question, and the body of its reply, if it is known."""
    return Ask(tenant, "GET", target, wanted=wanted)


class Place(NamedTuple):
    """The lines of a script at which a request is sent, and its reply taken; the first of its group's requests."""
    group: int
    conn: int
    opened: int
    wrote: int
    ended: int


def piece_of(ask):
    """The bytes of a request, as a script writes them."""
    fields = f"Host: x\r\nX-Ports-Key: {KEYS[ask.tenant]}\r\n"
    if ask.method == "PUT":
        fields += f"Content-Length: {len(ask.body)}\r\n"
    text = f"{ask.method} {ask.target} HTTP/1.1\r\n{fields}\r\n{ask.body}"
    for plain, written in (("\\", "\\\\"), ("\r", "\\r"), ("\n", "\\n"), ("\t", "\\t")):
        text = text.replace(plain, written)
    return text


class Script:
    """The script of these requests without those left out, by their numbers, and the place of each other one.

    Each question is given so many turns, and what changes something two, of which it takes one."""

    def __init__(self, asks, turns, without=frozenset()):
        self.lines, self.places = [], {}
        kept = [(number, ask) for number, ask in enumerate(asks) if number not in without]
        while kept:
            size = next((at for at, (_, ask) in enumerate(kept) if at and not ask.waits), len(kept))
            self.add(kept[:size], turns)
            kept = kept[size:]

    def add(self, group, turns):
        """Adds a request, and those that wait behind it."""
        opened = []
        for at, (number, ask) in enumerate(group):
            if at == 1:
                self.lines.append(f"turn {group[0][1].tenant}")
            conn = len(self.places) + at
            opened.append((number, conn, len(self.lines) + 1))
            self.lines += [f"open {conn}", f"piece {conn} {piece_of(ask)}"]
        for _, ask in group:
            self.lines += [f"turn {ask.tenant}"] * (turns if ask.method == "GET" else 2)
        for number, conn, line in opened:
            self.places[number] = Place(group[0][0], conn, line, len(self.lines) + 1, len(self.lines) + 2)
            self.lines += [f"wrote {conn} all", f"end {conn}"]

    def text(self):
        return "".join(f"{line}\n" for line in self.lines).encode()


class Answer(NamedTuple):
    """Which tenant was told a request's reply, its status, and the bytes that were sent, as they are printed."""
    tenant: str
    status: int
    sent: str

    def body(self):
        return self.sent.split("\\r\\n\\r\\n", 1)[1]


class Odd(Exception):
    """What is printed for a script is out of place."""


def answers(script, printed):
    """The answer to each request of the script, in the order in which they were told."""
    numbers = {place.conn: number for number, place in script.places.items()}
    told, sent, closed = {}, {}, set()
    for line in printed.splitlines():
        found = re.fullmatch(r"(\d+) (?:told (\d+|-) (\d+) (\d+)|sent (\d+) (.*)|closed (\d+))", line)
        if not found:
            raise Odd(f"printed: {line}")
        at, conn = int(found[1]), int(found[3] or found[5] or found[7])
        number = numbers.get(conn, -1)
        place = script.places.get(number)
        if found[3] and place and number not in told and place.opened < at < place.wrote:
            told[number] = (found[2], int(found[4]))
        elif found[5] and number in told and number not in sent and at == place.wrote:
            sent[number] = found[6]
        elif found[7] and number in sent and number not in closed and at == place.ended:
            closed.add(number)
        else:
            raise Odd(f"out of place: {line}")
    if closed != set(script.places):
        raise Odd(f"no whole answer to requests {sorted(set(script.places) - closed)}")
    return {number: Answer(*told[number], sent[number]) for number in told}
