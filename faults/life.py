"""One life of a slpda, in which one of its system calls may fail: what became of each step of it."""

import collections
import contextlib
import mmap
import os
import re
import socket
import struct
import subprocess
import sys
import tempfile
import threading
import time

HERE = os.path.dirname(os.path.realpath(__file__))
sys.path.insert(0, f"{HERE}/../hostile")

from messages import acknowledgement, attributes, registration, services, spelled  # noqa: E402
from server import take  # noqa: E402

PORT = 4270
PATIENCE = 2.0  # seconds for an answer on a stream, and for a line; half of them for a datagram, which is asked again
TRIES, PAUSE = 3, 0.7  # and the seconds before one that was refused is made again
IDLE = 0.7  # seconds in which nothing is asked, so that each thread has to wait
SPINS = 0.5  # of a processor, over the whole life
TOGETHER, LONG, LONGS = 20, "(a=" + "x" * 20000 + ")", 40
DATAGRAMS = ("ask 1", "ask 2", "register 1", "see 1", "see 2", "last 1", "last 2")
STREAMS = ("stream 1", "stream 2", "last stream 1", "last stream 2")
STEPS = ("start", *DATAGRAMS[:5], *STREAMS[:2], "burst 1", "long 1", "sweep", "reload", "idle", *DATAGRAMS[5:], *STREAMS[2:], "stop")
RULE = '[[rule]]\nname = "all-{0}"\nfrom = ["0.0.0.0/0"]\naction = "{0}"\ntype = "*"\nscopes = ["*"]\nverdict = "allow"\n'
SITE = 'scopes = "DEFAULT"\nlisten = ["{}:{}", "{}:{}"]\ncapacity = 64\nsweep = 1\nconnections = 16\nrules = "rules"\n'
LINE = re.compile(rb"# (allow|deny) code=(\d+) by=\S+ action=(see|register) asker=(\S+) type=\S+ scope=\S+")
ONE, TWO = "service:printer:lpr://one", "service:printer:lpr://two"
QUESTION, KIND = services("service:printer"), "service:printer:lpr"


def urls_in(reply):
    """The URLs of a reply to a service request, or None where it is none of code 0."""
    if len(reply) < 20 or reply[1] != 2 or reply[16:18] != b"\0\0":
        return None
    at, urls = 20, []
    while at + 5 <= len(reply):
        end = at + 5 + int.from_bytes(reply[at + 3 : at + 5], "big")
        urls.append(reply[at + 5 : end].decode(errors="replace"))
        at = end + 1
    return urls if at == len(reply) and len(urls) == int.from_bytes(reply[18:20], "big") else None


def judged(reply, is_right):
    """Whether a reply is right; says that memory was wanting; or is another."""
    if is_right(reply):
        return "ok"
    return "memory" if len(reply) >= 18 and reply[16:18] == b"\0\x0a" else f"wrong: {reply.hex()[:80]}"


def acknowledged(reply):
    return reply == acknowledgement()


class Life:
    """A life, by which number of all it is. `failing` is its calls, what becomes of one, and which is meant."""

    def __init__(self, program, inject, number, failing):
        self.program, self.inject, self.failing, self.told, self.output = program, inject, failing, {}, b""
        base, self.asker = os.getpid() % 100 + 20, 0
        self.sources, self.one, self.two = f"127.{base}.{number % 250}.", f"127.{base + 100}.{number % 250}.1", f"127.{base + 100}.{number % 250}.2"
        self.sent, self.got = collections.Counter(), collections.Counter()
        self.begun, self.made = set(), set()
        self.condition, self.has_ended = threading.Condition(), False

    def run(self):
        """Lives it, and returns itself."""
        with tempfile.TemporaryDirectory() as folder:
            for name, text in {"rules": "version = 1\n" + RULE.format("register") + RULE.format("see"), "site": SITE.format(self.one, PORT, self.two, PORT)}.items():
                with open(f"{folder}/{name}", "w") as it:
                    it.write(text)
            with open(f"{folder}/mark", "w+b") as it:
                it.write(bytes(64))
                it.flush()
                self.mark = mmap.mmap(it.fileno(), 64)
            self.live(folder)
            self.count, self.failed, _, self.where = struct.unpack_from("=4q", self.mark, 8)
            self.mark.close()
        return self

    def live(self, folder):
        calls, what, at = self.failing
        words = [self.inject, f"{folder}/mark", calls, what, at, self.program, "site"]
        self.process = subprocess.Popen(words, cwd=folder, bufsize=0, stdin=subprocess.PIPE, stdout=subprocess.PIPE, stderr=subprocess.STDOUT)
        reader = threading.Thread(target=self.read, daemon=True)
        reader.start()
        try:
            self.steps()
        except OSError as e:
            self.told["harness"] = repr(e)
        try:
            self.process.stdin.close()
            self.told["status"] = str(self.process.wait(3 * PATIENCE))
        except (OSError, subprocess.TimeoutExpired):
            self.process.kill()
            self.told["status"] = f"hangs, {self.process.wait()}"
        reader.join(PATIENCE)
        self.process.stdout.close()
        self.read_lines()

    def read(self):
        while piece := os.read(self.process.stdout.fileno(), 65536):
            with self.condition:
                self.output += piece
                self.condition.notify_all()
        with self.condition:
            self.has_ended = True
            self.condition.notify_all()

    def prints(self, *lines):
        """Which of these lines comes first, in time; None where none does."""
        end = time.monotonic() + 2 * PATIENCE
        with self.condition:
            while True:
                there = [it for it in lines if it in self.output]
                if there or self.has_ended or time.monotonic() > end:
                    return there[0] if there else None
                self.condition.wait(0.1)

    def step(self, name, call):
        self.mark[0] = STEPS.index(name)
        self.told[name] = call()

    def steps(self):
        self.step("start", lambda: "ok" if self.prints(b"ready\n") else "ended" if self.has_ended else "hangs")
        if self.told["start"] != "ok":
            return
        server = self.server()
        began, ticks = time.monotonic(), processor(server)
        first, second = registration(ONE, KIND, attrs="(color=true)"), registration(TWO, KIND)
        self.step("ask 1", lambda: self.ask(self.one, QUESTION, self.shows))
        self.step("ask 2", lambda: self.ask(self.two, QUESTION, self.shows))
        self.begun.add(ONE)
        self.step("register 1", lambda: self.ask(self.one, first, self.makes(ONE)))
        self.step("see 1", lambda: self.ask(self.one, QUESTION, self.shows))
        self.step("see 2", lambda: self.ask(self.two, QUESTION, self.shows))
        self.step("stream 1", lambda: self.talk(self.one, [QUESTION[:9], QUESTION[9:] + QUESTION], [self.shows] * 2))
        self.begun.add(TWO)
        self.step("stream 2", lambda: self.talk(self.two, [second[:40], second[40:] + QUESTION], [self.makes(TWO), self.shows]))
        self.step("burst 1", lambda: self.burst(self.one))
        self.step("long 1", lambda: self.long(self.one))
        self.step("sweep", lambda: self.command("sweep", {b"# sweep\n": "ok", b"! memory\n": "memory"}))
        self.step("reload", lambda: self.command("reload", {b"# rules 2\n": "ok", b"! rules 3\n": "memory", b"! file\n": "refused"}))
        self.step("idle", self.idle)
        self.step("last 1", lambda: self.ask(self.one, QUESTION, self.shows))
        self.step("last 2", lambda: self.ask(self.two, QUESTION, self.shows))
        self.step("last stream 1", lambda: self.talk(self.one, [QUESTION], [self.shows]))
        self.step("last stream 2", lambda: self.talk(self.two, [QUESTION], [self.shows]))
        if (processor(server) - ticks) / (time.monotonic() - began) > SPINS:
            self.told["spins"] = "yes"
        self.step("stop", lambda: self.say("stop") or "ok")

    def server(self):
        with open(f"/proc/{self.process.pid}/task/{self.process.pid}/children") as it:
            return int(it.read().split()[0])

    def source(self):
        self.asker = self.asker % 250 + 1
        return f"{self.sources}{self.asker}"

    def shows(self, reply):
        """Whether a reply has each service whose registration was acknowledged, and else at most those whose registration was sent, each once."""
        urls = urls_in(reply)
        return urls is not None and len(set(urls)) == len(urls) and self.made <= set(urls) <= self.begun

    def makes(self, url):
        """Whether a reply acknowledges the registration of this URL, which is remembered."""

        def is_made(reply):
            if acknowledged(reply):
                self.made.add(url)
            return acknowledged(reply)

        return is_made

    def ask(self, to, message, right):
        """What came of a datagram, which is sent again where no answer comes."""
        said = []
        for _ in range(TRIES):
            source = self.source()
            with socket.socket(type=socket.SOCK_DGRAM) as it:
                it.settimeout(PATIENCE / 2)
                it.bind((source, 0))
                it.connect((to, PORT))
                try:
                    it.send(message)
                    self.sent[source] += 1
                    said.append(judged(it.recv(65536), right))
                    self.got[source] += 1
                    time.sleep(PAUSE if said[-1] == "memory" else 0)
                except TimeoutError:
                    said.append("none")
                except ConnectionRefusedError:
                    said.append("refused")
            if said[-1] not in ("none", "memory"):
                break
        return "+".join(said)

    def talk(self, to, pieces, right):
        """What came of a stream, which is begun again where it ends, or no answer comes."""
        said = []
        for _ in range(TRIES):
            source = self.source()
            try:
                with socket.socket() as it:
                    it.settimeout(PATIENCE)
                    it.setsockopt(socket.IPPROTO_TCP, socket.TCP_NODELAY, 1)
                    it.bind((source, 0))
                    it.connect((to, PORT))
                    self.sent[source] += len(right)
                    for piece in pieces:
                        it.sendall(piece)
                        time.sleep(0.005)
                    told = "ok"
                    for each in right:
                        reply = take(it)
                        told = judged(reply, each) if reply else "closed"
                        if told != "ok":
                            break
                        self.got[source] += 1
                    said.append(told)
            except TimeoutError:
                said.append("none")
            except ConnectionRefusedError:
                said.append("refused")
            except OSError:
                said.append("closed")
            if said[-1] not in ("none", "memory", "closed"):
                break
            time.sleep(PAUSE)
        return "+".join(said)

    def burst(self, to):
        """Many datagrams at once: how many of them are not answered, and how many find no memory."""
        source, told, end = self.source(), collections.Counter(), time.monotonic() + PATIENCE
        with socket.socket(type=socket.SOCK_DGRAM) as it:
            it.bind((source, 0))
            it.connect((to, PORT))
            for xid in range(100, 100 + TOGETHER):
                with contextlib.suppress(ConnectionRefusedError):
                    it.send(QUESTION[:10] + xid.to_bytes(2, "big") + QUESTION[12:])
                    self.sent[source] += 1
            while sum(told.values()) < TOGETHER and time.monotonic() < end:
                it.settimeout(max(0.01, end - time.monotonic()))
                try:
                    reply = it.recv(65536)
                except (TimeoutError, ConnectionRefusedError):
                    break
                told[judged(reply, self.shows)] += 1
                self.got[source] += 1
        told["lost"] = TOGETHER - sum(told.values())
        return ", ".join(f"{count} {it}" for it, count in sorted(told.items()) if count and it != "ok") or "ok"

    def long(self, to):
        """Long replies that wait on a stream, which is read slowly."""
        source, answer = self.source(), spelled(7, 0, [b"\0\0", LONG, b"\0"])
        try:
            with socket.socket() as it:
                it.settimeout(PATIENCE)
                it.setsockopt(socket.SOL_SOCKET, socket.SO_RCVBUF, 16384)
                it.bind((source, 0))
                it.connect((to, PORT))
                it.sendall(registration("service:long://x", "service:long", attrs=LONG) + attributes("service:long") * LONGS)
                self.sent[source] += 1 + LONGS
                time.sleep(0.1)
                for is_right in [acknowledged, *[lambda reply: reply == answer] * LONGS]:
                    reply = take(it)
                    if not is_right(reply):
                        return judged(reply, is_right) if reply else "closed"
                    self.got[source] += 1
                return "ok"
        except TimeoutError:
            return "none"
        except OSError:
            return "closed"

    def idle(self):
        time.sleep(IDLE)
        span, (first,) = self.failing[2].partition("~")[2], struct.unpack_from("=q", self.mark, 24)
        while span and first and time.clock_gettime_ns(time.CLOCK_MONOTONIC) < first + (int(span) + 300) * 1_000_000:
            time.sleep(0.05)
        return "ok"

    def say(self, word):
        try:
            self.process.stdin.write(word.encode() + b"\n")
        except OSError:
            pass

    def command(self, word, lines):
        self.say(word)
        return lines.get(self.prints(*lines), "none")

    def read_lines(self):
        """Tells which lines are none, how many answers have no line, and how many lines more there are than messages."""
        *lines, rest = self.output.split(b"\n")
        counts, odd = collections.Counter(), []
        for line in lines:
            if of := LINE.fullmatch(line):
                counts[of[4].decode()] += 1
            elif line not in (b"ready", b"# sweep", b"# rules 2", b"! memory", b"! rules 3", b"! file"):
                odd.append(line.decode(errors="replace")[:80])
        for what, number in {
            "lines lost": sum(max(0, self.got[it] - counts[it]) for it in self.got),
            "lines too many": sum(max(0, counts[it] - self.sent[it]) for it in counts),
        }.items():
            if number:
                self.told[what] = str(number)
        if odd or rest:
            self.told["odd lines"] = " | ".join(sorted(set(odd)) + [rest.decode(errors="replace")[:60]] * bool(rest))

    def differs(self):
        """What is not as in a life in which nothing fails."""
        usual = {it: "ok" for it in STEPS} | {"status": "0"}
        return {it: said for it, said in self.told.items() if said != usual.get(it)}


def processor(process):
    """The seconds of a processor that a process has taken."""
    try:
        with open(f"/proc/{process}/stat") as it:
            fields = it.read().rpartition(")")[2].split()
        return (int(fields[11]) + int(fields[12])) / os.sysconf("SC_CLK_TCK")
    except OSError:
        return 0.0
