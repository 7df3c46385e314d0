"""A directory that stands in for slpda, for the tries of slp and slpls: it answers questions by datagram and stream from entries in memory, and keeps what it is sent.
It is made from RFC 2608 alone. What does not fit is cut, and has the flag OVERFLOW; a whole entry in another language than that of a filter is passed over."""
import re
import socket
import struct
import threading


def text(string):
    octets = string.encode()
    return struct.pack(">H", len(octets)) + octets


def value(spelling):
    """A value, or an operand, by its kind."""
    plain = re.sub(r"\\([0-9A-Fa-f]{2})", lambda it: chr(int(it[1], 16)), spelling.strip())
    plain = re.sub(r"\s+", " ", plain).strip().lower()
    if plain in ("true", "false"):
        return "truth", plain
    return ("number", int(plain)) if re.fullmatch("-?[0-9]+", plain) else ("text", plain)


def pattern(spelling):
    """A pattern with stars; pieces are compared as keys."""
    pieces = [re.sub(r"\\([0-9A-Fa-f]{2})", lambda it: chr(int(it[1], 16)), it).lower() for it in spelling.split("*")]
    return re.compile(".*".join(map(re.escape, pieces)), re.DOTALL)


def item(words, is_negated):
    """The test of an item. A negated one holds where some value does not meet it, or the tag is not there."""
    tag, operator, operand = re.fullmatch(r"(.*?)([<>~]?=)(.*)", words, re.DOTALL).groups()
    tag, wanted, form = tag.strip().lower(), value(operand), pattern(operand)
    tests = {
        "=": (lambda one: one == wanted) if "*" not in operand else (lambda one: one[0] == "text" and form.fullmatch(one[1]) is not None),
        "<=": lambda one: one[0] == wanted[0] and one[1] <= wanted[1],
        ">=": lambda one: one[0] == wanted[0] and one[1] >= wanted[1],
    }
    test = tests[operator]
    if operand.strip() == "*":
        return lambda attrs: (tag in attrs) != is_negated
    if is_negated:
        return lambda attrs: tag not in attrs or any(not test(it) for it in attrs[tag])
    return lambda attrs: any(map(test, attrs.get(tag, ())))


def filter_of(words, is_negated=False):
    """The test of a filter, and how many of its characters there are."""
    if words[1] not in "&|!":
        end = words.index(")")
        return item(words[1:end], is_negated), end + 1
    at, found = 2, []
    while words[at] == "(":
        one, length = filter_of(words[at:], is_negated != (words[1] == "!"))
        found, at = [*found, one], at + length
    joined = any if (words[1] == "|") != is_negated and words[1] != "!" else all
    return lambda attrs: joined(it(attrs) for it in found), at + 1


class Entry:
    def __init__(self, url, scopes, attrs="", language="en"):
        self.url, self.kind, self.scopes, self.spelled, self.language = url, url.split(":/")[0], scopes.lower().split(","), attrs, language
        self.attrs = {tag.lower(): [value(it) for it in values.split(",")] for tag, values in re.findall(r"\(([^=]*)=([^()]*)\)", attrs)}


class Directory:
    """At a free port of an address. Longest is what a reply on a stream may have; by is what it sends in the place of an answer, by datagram and stream alike."""

    def __init__(self, entries=(), scopes="default,office", host="127.0.0.1", longest=65535):
        self.entries, self.scopes, self.longest, self.came, self.by = list(entries), scopes, longest, [], lambda octets, reply: reply
        self.listener = socket.create_server((host, 0))
        self.place = self.listener.getsockname()
        self.datagrams = socket.socket(socket.AF_INET, socket.SOCK_DGRAM)
        self.datagrams.bind(self.place)
        for work in (self.take_datagrams, self.take_streams):
            threading.Thread(target=work, daemon=True).start()

    def address(self):
        return f"{self.place[0]}:{self.place[1]}"

    def take_datagrams(self):
        while True:
            octets, asker = self.datagrams.recvfrom(65535)
            self.came.append(("datagram", octets))
            for each in self.replies(octets, 1400):
                self.datagrams.sendto(each, asker)

    def take_streams(self):
        while True:
            stream, _ = self.listener.accept()
            with stream:
                octets = b""
                while len(octets) < 5 or len(octets) < int.from_bytes(octets[2:5], "big"):
                    if not (piece := stream.recv(65536)):
                        break
                    octets += piece
                self.came.append(("stream", octets))
                stream.sendall(b"".join(self.replies(octets, self.longest)))

    # -- answers

    def replies(self, octets, longest):
        """What it sends: one message, several, or none."""
        reply = self.by(octets, self.reply(octets, longest))
        return reply if isinstance(reply, list) else [reply] if reply else []

    def reply(self, octets, longest):
        """The reply to a message. Its texts are read in their order."""
        self.at, self.octets = 12, octets
        language = self.take()
        function = octets[1]
        if function in (1, 6):
            _, what, scopes, more, _ = [self.take() for _ in range(5)]
            body = self.services(what, scopes, more, language, longest) if function == 1 else self.described(what, scopes, language, longest)
            if what.lower() == "service:directory-agent":
                advert = text(f"service:directory-agent://{self.place[0]}") + text(self.scopes) + text("") + text("") + b"\0"
                function, body = 7, (0, struct.pack(">I", 77) + advert, False)
        elif function == 9:
            self.take()
            self.at += 2 if octets[self.at : self.at + 2] == b"\xff\xff" else 2 + int.from_bytes(octets[self.at : self.at + 2], "big")
            body = self.types(self.take(), longest)
        else:
            function, body = 4, (0, b"", False)
        code, rest, is_cut = body
        rest = struct.pack(">H", code) + (rest if code == 0 else b"")
        head = struct.pack(">BB", 2, function + 1) + (14 + len(language) + len(rest)).to_bytes(3, "big")
        return head + struct.pack(">H3x", 0x8000 * is_cut) + octets[10:12] + text(language) + rest

    def take(self):
        length = int.from_bytes(self.octets[self.at : self.at + 2], "big")
        self.at += 2 + length
        return self.octets[self.at - length : self.at].decode()

    def matching(self, what, scopes):
        wanted = {it.lower() for it in scopes.split(",")}
        kinds = [it for it in self.entries if it.url == what or it.kind == what or it.kind.startswith(f"{what}:")]
        return sorted((it for it in kinds if wanted & set(it.scopes)), key=lambda it: it.url)

    def services(self, kind, scopes, predicate, language, longest):
        found = self.matching(kind, scopes)
        if predicate:
            in_language = [it for it in found if it.language == language]
            if found and not in_language:
                return 1, b"", False
            holds = filter_of(predicate)[0]
            found = [it for it in in_language if holds(it.attrs)]
        parts, size = [], 20
        for it in found:
            part = struct.pack(">BH", 0, 300) + text(it.url) + b"\0"
            if size + len(part) > longest:
                break
            parts, size = [*parts, part], size + len(part)
        return 0, struct.pack(">H", len(parts)) + b"".join(parts), len(parts) < len(found)

    def listed(self, items, longest):
        kept, size = [], 21
        for it in items:
            size += len(it.encode()) + 1
            if size > longest:
                break
            kept.append(it)
        return text(",".join(kept)), len(kept) < len(items)

    def described(self, what, scopes, language, longest):
        found = self.matching(what, scopes)
        in_language = [it for it in found if it.language == language]
        if found and not in_language:
            return 1, b"", False
        joined = {}
        for it in in_language:
            for tag, values in re.findall(r"\(([^=]*)=([^()]*)\)", it.spelled):
                joined.setdefault(tag, {}).update(dict.fromkeys(values.split(",")))
        octets, is_cut = self.listed([f"({tag}={','.join(values)})" for tag, values in joined.items()], longest)
        return 0, octets + b"\0", is_cut

    def types(self, scopes, longest):
        wanted = {it.lower() for it in scopes.split(",")}
        octets, is_cut = self.listed(sorted({it.kind for it in self.entries if wanted & set(it.scopes)}), longest)
        return 0, octets, is_cut
