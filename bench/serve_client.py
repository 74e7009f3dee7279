"""A client for bench/serve.sh: one keep-alive connection to a portsd that serves, one request after another.

serve_client.py PORT PID: uploads 2,000 small ports of 1 kB as the tenant `alpha` and asks each for a variable,
and prints how many of each were answered a second, of uploads also the first and the last 500; then the same
for 100 uploads of each of the tenants `t1` to `t63`; then how long a request takes before and after idle time,
and which share of a core the process PID used while idle."""
import os
import socket
import sys
import time

PORTS = 2000
BYTES = 1000
IDLE_SECONDS = 10


class Client:
    def __init__(self, port):
        self.socket = socket.create_connection(("127.0.0.1", port))
        self.socket.setsockopt(socket.IPPROTO_TCP, socket.TCP_NODELAY, 1)

    def ask(self, request, wanted=None):
        """Sends a request, reads its whole reply and gives its body; stops if that isn't the one wanted."""
        self.socket.sendall(request)
        reply = b""
        while b"\r\n\r\n" not in reply:
            reply += self.receive()
        head, body = reply.split(b"\r\n\r\n", 1)
        size = int(head.split(b"Content-Length: ", 1)[1].split(b"\r\n", 1)[0])
        while len(body) < size:
            body += self.receive()
        if not head.startswith(b"HTTP/1.1 200 ") or wanted not in (None, body):
            sys.exit(f"another reply than wanted: {head} {body}")
        return body

    def receive(self):
        received = self.socket.recv(65536)
        if not received:
            sys.exit("the connection was closed")
        return received


def head(key):
    return f"HTTP/1.1\r\nHost: localhost\r\nX-Ports-Key: {key}\r\n"


def upload(key, number):
    text = f"COMMENT = port number {number}\nV = 1.{number}\nDISTNAME = small-${{V}}\nCATEGORIES = bench\n"
    body = f"{text}# {'x' * (BYTES - len(text) - 3)}\n".encode()
    target = f"/v1/file?name=/ports/bench/small{number}/Makefile"
    return f"PUT {target} {head(key)}Content-Length: {len(body)}\r\n\r\n".encode() + body, b'{"stored":true}'


def variable(number):
    target = f"/v1/var?path=bench/small{number}&name=DISTNAME"
    return f"GET {target} {head('alpha')}\r\n".encode(), b'{"defined":true,"value":"small-1.%d"}' % number


def seconds(client, requests):
    """The seconds that the requests take."""
    start = time.monotonic()
    for request, wanted in requests:
        client.ask(request, wanted)
    return time.monotonic() - start


def cpu_seconds(pid):
    """The processor time that a process has used."""
    fields = open(f"/proc/{pid}/stat").read().rsplit(")", 1)[1].split()
    return (int(fields[11]) + int(fields[12])) / os.sysconf("SC_CLK_TCK")


def main():
    port, pid = int(sys.argv[1]), int(sys.argv[2])
    client = Client(port)
    variables = [variable(number) for number in range(PORTS)]
    rates = []
    for first in range(0, PORTS, 500):
        rates.append(500 / seconds(client, [upload("alpha", number) for number in range(first, first + 500)]))
    mean = len(rates) / sum(1 / rate for rate in rates)
    print(f"uploads a second:  {mean:.0f}; the first 500 at {rates[0]:.0f}, the last 500 at {rates[-1]:.0f}")
    seconds(client, variables)
    print(f"/v1/var a second:  {PORTS / min(seconds(client, variables) for _ in range(3)):.0f}")
    rates = []
    for tenant in range(1, 64):
        rates.append(100 / seconds(client, [upload(f"t{tenant}", number) for number in range(100)]))
    print(f"uploads of each of 63 more tenants a second:  {min(rates):.0f} to {max(rates):.0f}; the last {rates[-1]:.0f}")
    for idle in range(3):
        if idle > 0:
            used = cpu_seconds(pid)
            time.sleep(IDLE_SECONDS)
            used = cpu_seconds(pid) - used
            print(f"idle for {IDLE_SECONDS} s: {100 * used / IDLE_SECONDS:.1f} % of a core")
            first = seconds(client, variables[:1])
            print(f"  the first request behind it: {first * 1e6:.0f} microseconds")
        mean = min(seconds(client, variables[:500]) for _ in range(3)) / 500
        print(f"a request with {idle * IDLE_SECONDS} s idle before: {mean * 1e6:.1f} microseconds")


if __name__ == "__main__":
    main()
