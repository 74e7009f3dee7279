"""A client for bench/many.sh: one keep-alive connection to a portsd that serves, one request after another.

many_client.py PORT PID TREE TENANTS: uploads the files below TREE as each of the tenants `t1` to `tTENANTS`,
then asks for the list of packages as each of them in turn, and prints how long the first one's first list and
the last one's take, by the clock and by the processor time of the process PID. The lists have to be equal.
Then it prints the same for both lists again, and how many uploads a second the first and the last tenant had. It
also prints how long a DELETE of the first tenant takes before the others store their files, and after that, and how
much memory the process has after the uploads, after the first lists, and after each tenant has asked what reaches a port."""
import os
import sys
import time

from serve_client import Client, cpu_seconds, head

AGAIN = 20
REACHING = "/v1/rdeps?path=category0/port0&depth=all"
REMOVED = 100


def files(tree):
    """The name and the bytes of each file below the tree, in the order of their names."""
    found = []
    for at, _, names in os.walk(tree):
        for name in names:
            with open(os.path.join(at, name), "rb") as file:
                found.append((os.path.join(at, name)[len(tree):], file.read()))
    return sorted(found)


def upload(client, key, name, content):
    request = f"PUT /v1/file?name={name} {head(key)}Content-Length: {len(content)}\r\n\r\n".encode()
    client.ask(request + content, b'{"stored":true}')


def uploads_a_second(client, key, stored):
    """How many files a second are stored for the key."""
    start = time.monotonic()
    for name, content in stored:
        upload(client, key, name, content)
    return len(stored) / (time.monotonic() - start)


def removal(client, key, stored):
    """The milliseconds that it takes to remove one of the key's files, each of which is stored again."""
    spent = 0
    for name, content in stored[:REMOVED]:
        start = time.monotonic()
        client.ask(f"DELETE /v1/file?name={name} {head(key)}\r\n".encode(), b'{"removed":true}')
        spent += time.monotonic() - start
        upload(client, key, name, content)
    return 1000 * spent / REMOVED


def resident(pid):
    """The megabytes of memory that the process has now, and the most that it had."""
    with open(f"/proc/{pid}/status", encoding="ascii") as file:
        said = dict(line.split(":", 1) for line in file)
    return f"{int(said['VmRSS'].split()[0]) / 1024:.0f} MB, at most {int(said['VmHWM'].split()[0]) / 1024:.0f} MB"


def list_of(client, key, wanted=None):
    """The list of packages of the key, which has to be the one that is wanted, if there is one."""
    return client.ask(f"GET /v1/list {head(key)}\r\n".encode(), wanted)


class Watch:
    """Milliseconds since it was made, by the clock and by a process's processor time."""

    def __init__(self, pid):
        self.pid = pid
        self.clock, self.used = time.monotonic(), cpu_seconds(pid)

    def told(self, times=1):
        clock = 1000 * (time.monotonic() - self.clock) / times
        used = 1000 * (cpu_seconds(self.pid) - self.used) / times
        return f"{clock:.1f} ms, processor {used:.0f} ms"


def main():
    port, pid, tree, tenants = int(sys.argv[1]), int(sys.argv[2]), sys.argv[3], int(sys.argv[4])
    keys = [f"t{number}" for number in range(1, tenants + 1)]
    stored, client = files(tree), Client(port)
    rates = [uploads_a_second(client, keys[0], stored)]
    alone = removal(client, keys[0], stored)
    rates += [uploads_a_second(client, key, stored) for key in keys[1:]]
    print(f"{tenants} tenants, {len(stored)} ports each: uploads a second of the first {rates[0]:.0f}, of the last {rates[-1]:.0f}")
    print(f"a DELETE of the first tenant: {alone:.2f} ms alone, {removal(client, keys[0], stored):.2f} ms among all")
    print(f"memory after the uploads: {resident(pid)}")
    first = None
    for number, key in enumerate(keys, 1):
        watch = Watch(pid)
        got = list_of(client, key, first)
        if number in (1, tenants):
            print(f"first list of tenant {number}: {watch.told()}")
        first = first or got
    print(f"memory after the first lists: {resident(pid)}")
    for number in sorted({1, tenants}):
        watch = Watch(pid)
        for _ in range(AGAIN):
            list_of(client, keys[number - 1], first)
        print(f"list again of tenant {number}: {watch.told(AGAIN)}")
    for key in keys:
        client.ask(f"GET {REACHING} {head(key)}\r\n".encode(), None)
    print(f"memory after rdeps: {resident(pid)}")


if __name__ == "__main__":
    main()
