"""Messages of SLPv2 and their fields, written from the words of RFC 2608 (sections 8 to 10) and from nothing else: no code of the project stands below this."""
import socket
import struct

FUNCTIONS = ["", "SrvRqst", "SrvRply", "SrvReg", "SrvDeReg", "SrvAck", "AttrRqst", "AttrRply", "DAAdvert", "SrvTypeRqst", "SrvTypeRply", "SAAdvert"]
OVERFLOW, FRESH, REQUEST_MCAST = 0x8000, 0x4000, 0x2000


def string(text):
    octets = text.encode() if isinstance(text, str) else text
    return struct.pack(">H", len(octets)) + octets


def message(name, body, **more):
    """Section 8: the header, the body, and one extension (section 9.1) behind it."""
    given = {"flags": 0, "language": "en", "version": 2, "extension": b"", **more}
    head = 14 + len(given["language"])
    length = head + len(body) + len(given["extension"])
    start = head + len(body) if given["extension"] else 0
    front = bytes([given["version"], FUNCTIONS.index(name)]) + length.to_bytes(3, "big") + struct.pack(">H", given["flags"]) + start.to_bytes(3, "big")
    return front + b"\0\0" + string(given["language"]) + body + given["extension"]


def url_entry(url, lifetime, blocks=b"\0"):
    """Section 4.3."""
    return struct.pack(">BH", 0, lifetime) + string(url) + blocks


def block(spi="openslp"):
    """An authentication block of section 9.2, with a count of one before it."""
    body = struct.pack(">I", 2**31) + string(spi) + b"x" * 13
    return b"\1" + struct.pack(">HH", 2, 4 + len(body)) + body


def srv_rqst(kind, scopes="DEFAULT", predicate="", responders="", spi="", **more):
    return message("SrvRqst", string(responders) + string(kind) + string(scopes) + string(predicate) + string(spi), **more)


def srv_reg(url, kind, attrs="", **more):
    given = {"lifetime": 10800, "scopes": "DEFAULT", "blocks": b"\0", "attr_blocks": b"\0"}
    given = {it: more.pop(it, usual) for it, usual in given.items()}
    body = url_entry(url, given["lifetime"], given["blocks"]) + string(kind) + string(given["scopes"]) + string(attrs) + given["attr_blocks"]
    return message("SrvReg", body, **{"flags": FRESH, **more})


def srv_dereg(url, scopes="DEFAULT", tags="", **more):
    return message("SrvDeReg", string(scopes) + url_entry(url, 0) + string(tags), **more)


def attr_rqst(what, scopes="DEFAULT", tags="", responders="", spi="", **more):
    return message("AttrRqst", string(responders) + string(what) + string(scopes) + string(tags) + string(spi), **more)


def srv_type_rqst(scopes="DEFAULT", authority=None, responders="", **more):
    return message("SrvTypeRqst", string(responders) + (b"\xff\xff" if authority is None else string(authority)) + string(scopes), **more)


class Broken(Exception):
    """Bytes that are no message as the RFC has it."""


class Fields:
    """The fields of a message, from the front."""

    def __init__(self, octets):
        self.octets, self.at = octets, 0

    def number(self, count):
        if self.at + count > len(self.octets):
            raise Broken("it ends within a field")
        self.at += count
        return int.from_bytes(self.octets[self.at - count : self.at], "big")

    def text(self):
        length = self.number(2)
        if self.at + length > len(self.octets):
            raise Broken("it ends within a text")
        self.at += length
        return self.octets[self.at - length : self.at].decode()

    def no_blocks(self):
        if self.number(1):
            raise Broken("it has an authentication block")

    def urls(self):
        found = []
        for _ in range(self.number(2)):
            if self.number(1):
                raise Broken("a reserved byte is not 0")
            lifetime, url = self.number(2), self.text()
            self.no_blocks()
            found.append((url, lifetime))
        return found


def fields_of(octets):
    """The fields of a reply by their names. One with a code may end behind it (section 7)."""
    it = Fields(octets)
    found = {"version": it.number(1), "name": FUNCTIONS[it.number(1)], "length": it.number(3), "flags": it.number(2), "extension": it.number(3), "xid": it.number(2), "language": it.text()}
    if found["version"] != 2 or found["length"] != len(octets) or found["flags"] & ~OVERFLOW or found["extension"]:
        raise Broken("its header is not that of a reply")
    found["code"] = it.number(2)
    if found["code"] and it.at == len(octets):
        return found
    if found["name"] == "SrvRply":
        found["urls"] = it.urls()
    elif found["name"] == "AttrRply":
        found["attrs"] = it.text()
        it.no_blocks()
    elif found["name"] == "SrvTypeRply":
        found["types"] = it.text()
    elif found["name"] == "DAAdvert":
        found["boot"] = it.number(4)
        for name in ("url", "scopes", "attrs", "spis"):
            found[name] = it.text()
        it.no_blocks()
    elif found["name"] != "SrvAck":
        raise Broken("it is no reply")
    if it.at != len(octets):
        raise Broken("bytes stand behind it")
    return found


class Peer:
    """A directory, as a client sees it: datagrams from one socket, and a stream that is opened where there is none."""

    def __init__(self, host, port):
        self.place, self.stream, self.rest = (host, port), None, b""
        self.datagrams = socket.socket(socket.AF_INET, socket.SOCK_DGRAM)
        self.datagrams.connect(self.place)

    def by_datagram(self, octets, seconds):
        self.datagrams.settimeout(seconds)
        self.datagrams.send(octets)
        try:
            return self.datagrams.recv(65535)
        except TimeoutError:
            return None

    def open(self):
        if self.stream:
            self.stream.close()
        self.stream, self.rest = socket.create_connection(self.place, 5), b""

    def take(self, seconds):
        """The next message on the stream, nothing where none comes, and no bytes where it was closed."""
        self.stream.settimeout(seconds)
        while len(self.rest) < 5 or len(self.rest) < int.from_bytes(self.rest[2:5], "big"):
            try:
                piece = self.stream.recv(65536)
            except TimeoutError:
                return None
            if not piece:
                return b""
            self.rest += piece
        length = int.from_bytes(self.rest[2:5], "big")
        whole, self.rest = self.rest[:length], self.rest[length:]
        return whole

    def by_stream(self, octets, seconds):
        self.open()
        self.stream.sendall(octets)
        return self.take(seconds)
