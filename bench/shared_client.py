"""A client for bench/shared.sh: one keep-alive connection to a portsd that serves, one request after another.

shared_client.py PORT PID: stores 100 ports of 200 lines each for the tenants `alpha` and `beta`, and asks for a
variable of each port, and for each port: as `alpha` for the first time, then again, then as `beta`. It prints how
many of each were answered a second, by the clock and by the processor time of the process PID. Then it stores
1,900 ports for the tenant `gamma`, whose evaluation reads 8 files each, and prints the resident memory of the
process PID before any of them is evaluated, after 1,024 of them are, and after all are."""
import sys
import time

from serve_client import Client, cpu_seconds, head

LINES = 200
PORTS = 100
AGAIN = 10
LARGE_PORTS = 1900
KEPT = 1024
SHARED_FILES = 6


def text_of(number):
    """A port's makefile of 200 lines, all of which are executed."""
    lines = [f"DISTNAME = shared-1.{number}", "COMMENT = one of many", "CATEGORIES = bench"]
    while len(lines) < LINES - 4:
        at = len(lines)
        lines += [f"V{at} = a{at} b{at} c{at}", f".if ${{V{at}:Mb*}} == b{at}", f"W{at} = y", ".endif"]
    while len(lines) < LINES - 1:
        lines.append(f"X{len(lines)} = x")
    return ("\n".join(lines) + "\n.include <bsd.port.mk>\n").encode()


def put(client, key, name, body):
    request = f"PUT /v1/file?name={name} {head(key)}Content-Length: {len(body)}\r\n\r\n".encode()
    client.ask(request + body, b'{"stored":true}')


def get(key, target):
    return f"GET {target} {head(key)}\r\n".encode()


class Rates:
    """How many requests a second were answered, by the clock and by the processor time of a process."""

    def __init__(self, client, pid):
        self.client = client
        self.pid = pid

    def told(self, requests):
        clock, used = time.monotonic(), cpu_seconds(self.pid)
        for request in requests:
            self.client.ask(request)
        clock, used = time.monotonic() - clock, cpu_seconds(self.pid) - used
        return f"{len(requests) / clock:.0f} ({len(requests) / max(used, 0.01):.0f} a processor second)"


def ask_shared(client, pid):
    targets = {
        "/v1/var": [f"/v1/var?path=bench/p{number}&name=DISTNAME" for number in range(PORTS)],
        "/v1/port": [f"/v1/port?path=bench/q{number}" for number in range(PORTS)],
    }
    for key in ("alpha", "beta"):
        for number in range(PORTS):
            for letter in "pq":
                put(client, key, f"/ports/bench/{letter}{number}/Makefile", text_of(number))
    rates = Rates(client, pid)
    for route, asked in targets.items():
        first = rates.told([get("alpha", target) for target in asked])
        other = rates.told([get("beta", target) for target in asked])
        again = rates.told([get("alpha", target) for target in asked * AGAIN])
        print(f"{route} of 200 lines, a second: first {first}, by another tenant {other}, again {again}")


def memory(pid):
    """The resident memory of a process, in kB."""
    with open(f"/proc/{pid}/status") as status:
        for line in status:
            if line.startswith("VmRSS:"):
                return int(line.split()[1])
    sys.exit("no such process")


def ask_many(client, pid):
    includes = "".join(f'.include "../shared{number}.mk"\n' for number in range(SHARED_FILES))
    for number in range(SHARED_FILES):
        put(client, "gamma", f"/ports/bench/shared{number}.mk", b"S%d = some words of a shared file\n" % number * 20)
    put(client, "gamma", "/ports/bench/Makefile.inc", b"MAINTAINER = The OpenBSD ports mailing-list\n")
    for number in range(LARGE_PORTS):
        body = f"DISTNAME = many-1.{number}\n{includes}.include <bsd.port.mk>\n".encode()
        put(client, "gamma", f"/ports/bench/p{number}/Makefile", body)
    sizes = [memory(pid)]
    for first, last in ((0, KEPT), (KEPT, LARGE_PORTS)):
        for number in range(first, last):
            client.ask(get("gamma", f"/v1/var?path=bench/p{number}&name=DISTNAME"))
        sizes.append(memory(pid))
    print(f"{LARGE_PORTS} ports of 8 files each, resident memory in kB: {sizes[0]} before, {sizes[1]} after {KEPT}, {sizes[2]} after all")


def main():
    port, pid = int(sys.argv[1]), int(sys.argv[2])
    client = Client(port)
    ask_shared(client, pid)
    ask_many(client, pid)


main()
