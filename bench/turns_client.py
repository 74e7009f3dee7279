"""A client for bench/serve.sh: what a long list of one tenant takes, and what it costs another one.

turns_client.py PORT PID FOLDER: uploads 2,000 ports as the tenant `alpha`, 2,000 others as `gamma`, and one as `beta`.
First alpha asks for its first list, and nobody asks beside it. Then gamma does, and until its list is there, beta asks
for a variable again and again. It prints how long beta's questions took, and adds the milliseconds of the two lists
to FOLDER/alone and FOLDER/beside, by the clock and by the processor time of the process PID. FOLDER/stored is a
script of `replay` with alpha's uploads, FOLDER/list the same with the list after them."""
import statistics
import sys
import threading
import time

from serve_client import Client, head

PORTS = 2000


def makefile(number, major):
    return (
        f"COMMENT = port number {number}\nV = {major}.{number}\nDISTNAME = small-${{V}}\nPKGNAME = small{number}-${{V}}\n"
        f"CATEGORIES = bench\nMAINTAINER = nobody\n.include <bsd.port.mk>\n"
    )


def put(key, number, major):
    body = makefile(number, major)
    target = f"/v1/file?name=/ports/bench/small{number}/Makefile"
    return f"PUT {target} {head(key)}Content-Length: {len(body)}\r\n\r\n{body}"


def get(key, target):
    return f"GET {target} {head(key)}\r\n"


def as_script(request, turns):
    text = request.replace("\\", "\\\\").replace("\r", "\\r").replace("\n", "\\n")
    return f"piece 0 {text}\n" + "turn 0\n" * turns + "wrote 0 all\n"


def milliseconds(client, request):
    start = time.monotonic()
    client.ask(request)
    return 1000 * (time.monotonic() - start)


def processor_milliseconds(pid):
    """How long a process of one thread has run."""
    with open(f"/proc/{pid}/schedstat", encoding="ascii") as file:
        return int(file.read().split()[0]) / 1e6


def timed(pid, work):
    """What a piece of work gives, and the milliseconds that the process runs for it."""
    before = processor_milliseconds(pid)
    given = work()
    return given, processor_milliseconds(pid) - before


def write(folder, name, text, how="w"):
    with open(f"{folder}/{name}", how, encoding="ascii") as file:
        file.write(text)


def uploads_of(key, major):
    return [put(key, number, major) for number in range(PORTS)]


def write_scripts(folder):
    """The scripts of alpha's uploads, without and with its list."""
    stored = "open 0\n" + "".join(as_script(upload, 1) for upload in uploads_of("alpha", 1))
    write(folder, "stored", stored)
    write(folder, "list", stored + as_script(get("alpha", "/v1/list"), PORTS + 1))


def beside(lister, key, asker, question):
    """The milliseconds of the key's list, and those of each question that is asked until it is there."""
    took, waited = [], []
    listed = get(key, "/v1/list").encode()
    listing = threading.Thread(target=lambda: took.append(milliseconds(lister, listed)))
    listing.start()
    while listing.is_alive():
        waited.append(milliseconds(asker, question))
    listing.join()
    return took[0], waited


def main():
    port, pid, folder = int(sys.argv[1]), int(sys.argv[2]), sys.argv[3]
    write_scripts(folder)
    alpha, beta, gamma = Client(port), Client(port), Client(port)
    for upload in uploads_of("alpha", 1):
        alpha.ask(upload.encode())
    for upload in uploads_of("gamma", 2):
        gamma.ask(upload.encode())
    beta.ask(put("beta", 1, 1).encode())
    question = get("beta", "/v1/var?path=bench/small1&name=DISTNAME").encode()
    beta.ask(question)
    alone, alone_ran = timed(pid, lambda: milliseconds(alpha, get("alpha", "/v1/list").encode()))
    (took, waited), took_ran = timed(pid, lambda: beside(gamma, "gamma", beta, question))
    print(f"while a first list of {PORTS} ports is computed, {len(waited)} questions of another tenant:")
    print(f"  median {statistics.median(waited):.2f} ms, longest {max(waited):.2f} ms")
    write(folder, "alone", f"{alone:.0f} {alone_ran:.0f}\n", "a")
    write(folder, "beside", f"{took:.0f} {took_ran:.0f}\n", "a")


if __name__ == "__main__":
    main()
