"""A slpda that is attacked: its site, its start, its console, what it takes, and what it prints."""

import collections
import fcntl
import multiprocessing
import os
import re
import signal
import socket
import subprocess
import time

ATTACKED, ASKED, ASKER = "127.0.0.1", "127.0.0.2", "127.0.0.9"
CONNECTIONS = 256

# Name, asker, action and scope: in quiet the second asker alone may register, and nobody may withdraw.
RULES = [
    ("asker-registers", f"{ASKER}/32", "register", "quiet"),
    ("all-register", "127.0.0.0/8", "register", "default"),
    ("all-withdraw", "127.0.0.0/8", "withdraw", "default"),
    ("all-see", "0.0.0.0/0", "see", "*"),
]
RULE = '[[rule]]\nname = "{}"\nfrom = ["{}"]\naction = "{}"\ntype = "*"\nscopes = ["{}"]\nverdict = "allow"\n'
CONFIGURATION = """scopes = "{scopes}"
listen = [{listen}]
capacity = {capacity}
connections = {connections}
sweep = 1
rules = "rules.toml"
"""
LINE = re.compile(
    rb"(?m)^# (?:allow code=(0)|deny code=([1-9]\d?)) by=[a-z:0-9-]+ action=(?:register|withdraw|see) asker=127(?:\.\d+){3} type=\S+ scope=.+$"
)

OWN = f" asker={ASKER} ".encode()


def free_port(addresses):
    """A port that is free at all addresses for datagrams and for streams."""
    for _ in range(100):
        sockets = [socket.socket(type=it) for it in (socket.SOCK_STREAM, socket.SOCK_DGRAM) for _ in addresses]
        try:
            port = 0
            for it, address in zip(sockets, addresses * 2):
                it.bind((address, port))
                port = it.getsockname()[1]
            return port
        except OSError:
            continue
        finally:
            for it in sockets:
                it.close()
    raise OSError("no port is free")


def read_log(server, told):
    """Reads what a server prints until it ends: counts the lines of what it judged by code, and those about the second asker, and tells each other line at once."""
    server.leave()
    output = server.process.stdout.fileno()
    counts, own, bad, rest = collections.Counter(), 0, [], b""
    while chunk := os.read(output, 1 << 20):
        lines, end, rest = (rest + chunk).rpartition(b"\n")
        found = LINE.findall(lines)
        counts.update(int(allowed or denied) for allowed, denied in found)
        own += lines.count(OWN)
        if len(found) != lines.count(b"\n") + len(end):
            for line in lines.split(b"\n"):
                if re.fullmatch(rb"ready|[#!] [a-z]+( \d+)?", line):
                    told.send(line.decode())
                elif not LINE.fullmatch(line):
                    bad.append(line[:200])
    told.send((counts, own, bad + [rest[:200]] * bool(rest)))


def nanoseconds(path):
    try:
        with open(path) as it:
            return int(it.read().split()[0])
    except OSError:  # the thread has ended
        return 0


def dropped(address, port):
    """How many datagrams the system dropped before the sockets that are bound there, since nobody took them."""
    there = f"{socket.inet_aton(address)[::-1].hex().upper()}:{port:04X}"
    with open("/proc/net/udp") as it:
        return sum(int(line.split()[-1]) for line in it if there in line.split()[1:2])


class Server:
    """A slpda with this site. Whoever enters it gets it once it is ready; it is ended by its own process number."""

    def __init__(self, program, folder, rules=RULES, scopes="DEFAULT,quiet", addresses=(ATTACKED, ASKED), capacity=1024, preload=None):
        self.port, self.lines, self.calm, self.folder = free_port(addresses), [], 0, folder
        with open(f"{folder}/rules.toml", "w") as it:
            it.write("version = 1\n" + "".join(RULE.format(*rule) for rule in rules))
        with open(f"{folder}/slpda.toml", "w") as it:
            listen = ", ".join(f'"{address}:{self.port}"' for address in addresses)
            it.write(CONFIGURATION.format(scopes=scopes, listen=listen, capacity=capacity, connections=CONNECTIONS))
        more = {"env": {**os.environ, **preload}} if preload else {}
        self.process = subprocess.Popen([program, "slpda.toml"], cwd=folder, stdin=subprocess.PIPE, stdout=subprocess.PIPE, text=True, **more)
        fcntl.fcntl(self.process.stdout, fcntl.F_SETPIPE_SZ, 1 << 20)
        self.told, telling = multiprocessing.Pipe(False)
        self.reader = multiprocessing.Process(target=read_log, args=(self, telling), daemon=True)
        self.reader.start()
        telling.close()

    def __enter__(self):
        if not self.prints("ready", 20):
            self.__exit__()
            raise OSError("the server was not ready within 20 s")
        return self

    def __exit__(self, *_):
        if self.lives():
            self.process.kill()
        self.process.wait()
        self.reader.join(5)

    def leave(self):
        """In a process beside that of the trial: the server's input ends with that one, and an interrupt is its business."""
        signal.signal(signal.SIGINT, signal.SIG_IGN)
        self.process.stdin.close()

    def lives(self):
        return self.process.poll() is None

    def prints(self, wanted, seconds):
        """Whether this line, or what its reader tells at the end, is printed in time."""
        end = time.monotonic() + seconds
        while self.told.poll(max(0, end - time.monotonic())):
            try:
                self.lines.append(self.told.recv())
            except EOFError:
                return False
            if self.lines[-1] == wanted or isinstance(self.lines[-1], tuple):
                return self.lines[-1] == wanted or wanted is None
        return False

    def say(self, word):
        self.process.stdin.write(word + "\n")
        self.process.stdin.flush()

    def obeys(self, word, seconds):
        """Whether the console answers sweep or reload in time."""
        self.say(word)
        return self.prints({"sweep": "# sweep", "reload": f"# rules {len(RULES)}"}[word], seconds)

    def refuses_a_pipe(self, seconds):
        """Whether a rule file that is a pipe is refused in time, to which nobody writes, and the file in its place is read then."""
        rules, kept = f"{self.folder}/rules.toml", f"{self.folder}/kept.toml"
        os.rename(rules, kept)
        os.mkfifo(rules)
        self.say("reload")
        is_refused = self.prints("! file", seconds)
        os.replace(kept, rules)
        if is_refused:
            self.lines.remove("! file")
        return is_refused and self.obeys("reload", seconds)

    def stop(self, seconds):
        """The status of the server, or None where it does not stop in time; how many lines it printed of each code, and about the second asker; and lines that are none."""
        try:
            self.say("stop")
            status = self.process.wait(seconds)
        except (OSError, subprocess.TimeoutExpired):
            status = self.process.poll()
            self.process.kill()
        return status, *(self.lines.pop() if self.prints(None, 20) else ({}, 0, [b"(the log was not read)"]))

    def memory(self):
        """VmRSS and VmSize, in kilobytes."""
        with open(f"/proc/{self.process.pid}/status") as it:
            said = dict(line.split(":", 1) for line in it)
        return int(said["VmRSS"].split()[0]), int(said["VmSize"].split()[0])

    def processor(self):
        """The seconds of a processor that its threads have taken."""
        return sum(nanoseconds(f"/proc/{self.process.pid}/task/{it}/schedstat") for it in os.listdir(f"/proc/{self.process.pid}/task")) / 1e9

    def descriptors(self):
        return len(os.listdir(f"/proc/{self.process.pid}/fd"))

    def calms(self, seconds):
        """Whether it has as many descriptors as at first, in time."""
        end = time.monotonic() + seconds
        while self.descriptors() != self.calm and time.monotonic() < end:
            time.sleep(0.1)
        return self.descriptors() == self.calm

    def dropped(self, address):
        """How many datagrams the system dropped before the server at an address."""
        return dropped(address, self.port)

    def datagrams(self, source, to=ATTACKED):
        it = socket.socket(type=socket.SOCK_DGRAM)
        it.setsockopt(socket.SOL_SOCKET, socket.SO_RCVBUF, 1 << 20)
        it.bind((source, 0))
        it.connect((to, self.port))
        return it

    def stream(self, source, to=ATTACKED, seconds=20):
        it = socket.socket()
        it.settimeout(seconds)
        it.setsockopt(socket.IPPROTO_IP, 24, 1)  # IP_BIND_ADDRESS_NO_PORT: of each address all ports can be used
        it.setsockopt(socket.IPPROTO_TCP, socket.TCP_NODELAY, 1)
        it.bind((source, 0))
        it.connect((to, self.port))
        return it


def ask(datagrams, message, seconds=2.0):
    """The reply to a datagram, and how often it was sent: once more where none came, as clients do. None where none came again."""
    for times in (1, 2):
        end = time.monotonic() + seconds
        datagrams.send(message)
        while (left := end - time.monotonic()) > 0:
            datagrams.settimeout(left)
            try:
                reply = datagrams.recv(65535)
            except TimeoutError:
                break
            if reply[10:12] == message[10:12]:
                return reply, times
    return None, 2


def take(stream):
    """The next message of a stream, or what came of it before it ended."""
    reply = b""
    while len(reply) < 5 or len(reply) < int.from_bytes(reply[2:5], "big"):
        more = stream.recv(max(5, int.from_bytes(reply[2:5], "big")) - len(reply))
        if not more:
            break
        reply += more
    return reply
