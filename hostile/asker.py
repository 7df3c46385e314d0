"""The second asker, whom no attack may disturb."""

import multiprocessing
import socket
import time

from messages import acknowledgement, attributes, code_of, registration, services, spelled, string, types
from server import ASKED, ASKER, ask, dropped, take

QUIET = [
    ("service:quiet:one://h1", "service:quiet:one", "(a=1),(b=x)"),
    ("service:quiet:one://h2", "service:quiet:one", "(a=2),c"),
    ("service:quiet:two://h3", "service:quiet:two", "(a=3)"),
]


def without_lifetimes(reply):
    """The reply to a service request with each lifetime 0, and these lifetimes."""
    at, out, seen = 18 + int.from_bytes(reply[12:14], "big"), bytearray(reply), []
    while at + 5 <= len(out):
        seen.append(int.from_bytes(out[at + 1 : at + 3], "big"))
        out[at + 1 : at + 3] = b"\0\0"
        at += 6 + int.from_bytes(out[at + 3 : at + 5], "big")
    return bytes(out), seen


def found(urls):
    return spelled(2, 0, [b"\0\0" + len(urls).to_bytes(2, "big"), *(b"\0\0\0" + string(it) + b"\0" for it in urls)])


# What it asks, and the reply that is right, with lifetimes 0. The first advert is right but for its boot stamp, which cannot be known.
QUESTIONS = [
    (services("service:quiet", "quiet"), found([url for url, _, _ in QUIET])),
    (types("quiet"), spelled(10, 0, [b"\0\0", "service:quiet:one,service:quiet:two"])),
    (attributes("service:quiet:one://h1", "quiet"), spelled(7, 0, [b"\0\0", "(a=1),(b=x)", b"\0"])),
    (services("service:quiet", "quiet", "(&(a>=2)(!(c=*)))"), found(["service:quiet:two://h3"])),
    (attributes("service:quiet", "quiet", "a"), spelled(7, 0, [b"\0\0", "(a=1,2,3)", b"\0"])),
    (services("service:quiet:one", "quiet", "(b=x*)"), found(["service:quiet:one://h1"])),
    (services("service:directory-agent", "quiet"), spelled(8, 0, [b"\0" * 6, f"service:directory-agent://{ASKED}", "default,quiet", "", "", b"\0"])),
]


def echo(server, it):
    """Sends each datagram back."""
    server.leave()
    while True:
        message, source = it.recvfrom(65535)
        it.sendto(message, source)


class Asker:
    """Asks at the other address, one question after the other, in a process of its own, until it is told to stop. Before each it asks an echo there, which
    stands for what the machine takes: both are late as often where the server is not."""

    def __init__(self, server, patience, pause, stream_each):
        self.server, self.patience, self.pause, self.stream_each = server, patience, pause, stream_each
        self.socket, self.wrong, self.waits, self.again, self.stamp = server.datagrams(ASKER, ASKED), [], [], 0, None
        self.judged, self.echo, self.echoed = len(QUIET), socket.socket(type=socket.SOCK_DGRAM), socket.socket(type=socket.SOCK_DGRAM)
        self.echo.bind((ASKED, 0))
        self.echoed.bind((ASKER, 0))
        self.echoed.connect(self.echo.getsockname())
        self.stopping, (self.told, self.telling) = multiprocessing.Event(), multiprocessing.Pipe(False)
        self.began = time.time()

    def registers(self):
        """Whether its services were taken, each at once."""
        told = [ask(self.socket, registration(url, kind, "quiet", attrs)) for url, kind, attrs in QUIET]
        return told == [(acknowledgement(), 1)] * len(QUIET)

    def start(self):
        multiprocessing.Process(target=echo, args=(self.server, self.echo), daemon=True).start()
        multiprocessing.Process(target=self.run, daemon=True).start()

    def stop(self):
        """When it asked, how long each answer took, and that of the echo before it; how many were asked again; how many of its messages the server judged;
        what was wrong or lost."""
        self.stopping.set()
        return self.told.recv() if self.told.poll(10) else ([], 0, 0, ["the second asker did not end"])

    def run(self):
        self.server.leave()
        while not self.stopping.is_set() and len(self.wrong) < 100:
            number, before = len(self.waits), time.monotonic()
            ask(self.echoed, QUESTIONS[0][0])
            began = time.monotonic()
            question, right = QUESTIONS[number % len(QUESTIONS)]
            try:
                reply = self.by_stream(question) if number % self.stream_each == 0 else self.by_datagram(question, number)
                took = time.monotonic() - began
                fault = self.fault(question, right, reply, took)
            except OSError as e:
                took, fault = time.monotonic() - began, f"met {e!r}"
            self.waits.append((began, took, began - before))
            if fault:
                self.wrong.append(f"question {number} of the second asker, {question.hex()}, {fault}")
            time.sleep(max(0, self.pause - took))
        self.telling.send((self.waits, self.again, self.judged, self.wrong))

    def dropped(self):
        """How many datagrams the system dropped before the server at the asked address, and before this asker."""
        return self.server.dropped(ASKED), dropped(*self.socket.getsockname())

    def by_datagram(self, question, number):
        """The reply. One that is asked for again was lost, unless the system dropped a datagram meanwhile: the server judged as many as came to it."""
        xid, before = (number & 0xFFFF).to_bytes(2, "big"), self.dropped()
        reply, times = ask(self.socket, question[:10] + xid + question[12:])
        self.judged += times
        if times == 2:
            self.again += 1
            after = self.dropped()
            self.judged -= after[0] - before[0]
            if after == before:
                self.wrong.append(f"question {number} of the second asker, {question.hex()}, got no answer at first, and the system dropped none")
        return reply and reply[:10] + b"\0\1" + reply[12:]

    def by_stream(self, question):
        self.judged += 1
        with self.server.stream(ASKER, ASKED, self.patience) as it:
            it.sendall(question)
            return take(it)

    def fault(self, question, right, reply, took):
        """What is wrong with a reply, if anything."""
        if not reply:
            return f"got no answer within {took:.1f} s"
        shown, left = reply, 65535 - (time.time() - self.began)
        if right[1] == 2 and code_of(reply) == 0:
            shown, lifetimes = without_lifetimes(reply)
            if any(abs(it - left) > 3 + self.patience for it in lifetimes):
                return f"got lifetimes {lifetimes}, and some {left:.0f} s are left"
        elif right[1] == 8:
            self.stamp = self.stamp or reply[18:22]
            right = right[:18] + self.stamp + right[22:]
        if shown != right:
            return f"got {reply.hex()}, not {right.hex()}"
        return f"was answered after {took:.2f} s" if took > self.patience else None
