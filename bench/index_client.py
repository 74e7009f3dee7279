"""A client for bench/serve.sh: asks servers about a tree of ports, over one keep-alive connection to each.

Each of these begins with uploads of the files below TREE, as the tenant `alpha`.

index_client.py compare TREE PORT..         asks each kind of question of the servers on these ports, and stops if one
                                            of them gives another body than the first
index_client.py measure TREE TIMES PORT..   asks each kind so many times, or ten times as many if one of it is short.
                                            Prints a line for each: how many each server answered a second, and the kind
index_client.py calls TREE PORT PID         opens 15 connections more, and asks for the first list while `strace` counts
                                            the system calls of the process PID. Prints how many there are for each turn
"""
import re
import signal
import subprocess
import sys
import time
from typing import NamedTuple

from many_client import files, upload
from serve_client import Client, head

ASKED = "category0/port0"
COMPARED, MANY, WARM, IDLE = 3, 10, 100, 15


class Kind(NamedTuple):
    """What is measured: its name, the requests that are one of it, so many times, and those that come before."""
    name: str
    groups: list
    before: list = []


class Tree:
    """The makefiles of a tree, as they were stored first."""

    def __init__(self, folder):
        self.stored = files(folder)
        self.versions = 0

    def store(self, client):
        for name, text in self.stored:
            upload(client, "alpha", name, text)

    def new_version(self):
        """The upload of one of the ports with a version that it hadn't."""
        self.versions += 1
        name, text = self.stored[self.versions * 7 % len(self.stored)]
        text = re.sub(rb"(?m)^(DISTNAME = .*)-.*$", rb"\g<1>-2.%d" % self.versions, text)
        return f"PUT /v1/file?name={name} {head('alpha')}Content-Length: {len(text)}\r\n\r\n".encode() + text

    def paths(self):
        """The paths of some ports."""
        return [name.removeprefix("/ports/").removesuffix("/Makefile") for name, _ in self.stored[:WARM]]


def get(target):
    return f"GET {target} {head('alpha')}\r\n".encode()


def kinds(tree, times):
    many, paths = times * MANY, tree.paths()
    variables = [[get(f"/v1/var?path={path}&name=DISTNAME")] for path in paths]
    ports = [[get(f"/v1/port?path={path}")] for path in paths]
    none, most = get("/v1/match?spec=port1*-*"), get("/v1/match?spec=STEM-%3E%3D1.2")
    return [
        Kind("first list", [[get("/v1/list")]]),
        Kind("list again", [[get("/v1/list")]] * times),
        Kind("rdeps, depth all, again", [[get(f"/v1/rdeps?path={ASKED}&depth=all")]] * times),
        Kind("deps again", [[get(f"/v1/deps?path={ASKED}")]] * many),
        Kind("a warm variable", [variables[at % len(paths)] for at in range(many)], variables),
        Kind("a port", [ports[at % len(paths)] for at in range(many)], ports),
        Kind("upload and match, none", [[tree.new_version(), none] for _ in range(times)]),
        Kind("upload and match, most", [[tree.new_version(), most] for _ in range(times)]),
        Kind("upload alone", [[tree.new_version()] for _ in range(many)]),
    ]


def compare(folder, *numbers):
    tree, clients = Tree(folder), [Client(int(number)) for number in numbers]
    for client in clients:
        tree.store(client)
    for kind in kinds(tree, COMPARED):
        for request in (request for group in kind.before + kind.groups for request in group):
            bodies = [client.ask(request) for client in clients]
            if bodies != bodies[:1] * len(bodies):
                shown = "\n".join(body[:1000].decode() for body in bodies)
                sys.exit(f"{kind.name}: the bodies differ for {request.decode()}\n{shown}")


def ask(client, groups):
    for group in groups:
        for request in group:
            client.ask(request)


def measure(folder, times, *numbers):
    tree, clients = Tree(folder), [Client(int(number)) for number in numbers]
    for client in clients:
        tree.store(client)
    for kind in kinds(tree, int(times)):
        rates = []
        for client in clients:
            ask(client, kind.before)
            start = time.monotonic()
            ask(client, kind.groups)
            rates.append(len(kind.groups) / (time.monotonic() - start))
        print(*(f"{rate:.3f}" for rate in rates), kind.name)


def calls(folder, number, pid):
    tree, client = Tree(folder), Client(int(number))
    tree.store(client)
    idle = [Client(int(number)) for _ in range(IDLE)]
    for each in idle:
        each.ask(get(f"/v1/file?name={tree.stored[0][0]}"))
    counting = subprocess.Popen(["strace", "-f", "-c", "-p", pid], stderr=subprocess.PIPE, text=True)
    said = counting.stderr.readline()
    if "attached" not in said:
        print(f"system calls aren't counted: {said.strip()}")
        return
    client.ask(get("/v1/list"))
    counting.send_signal(signal.SIGINT)
    rows = [line.split() for line in counting.communicate()[1].splitlines()]
    counted = {row[-1]: int(row[3]) / (len(tree.stored) + 1) for row in rows if len(row) > 4 and row[3].isdigit()}
    total = counted.pop("total")
    most = ", ".join(f"{name} {count:.1f}" for name, count in list(counted.items())[:4])
    print(f"a first list of {len(tree.stored):,} ports beside {IDLE} idle clients:")
    print(f"  {total:.1f} system calls a turn ({most})")


if __name__ == "__main__":
    {"compare": compare, "measure": measure, "calls": calls}[sys.argv[1]](*sys.argv[2:])
