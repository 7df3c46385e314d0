"""What slp, slpls, slpcast and slplint share of SLPv2 (RFC 2608): messages as bytes, replies read strictly, escapes, and how directories are asked.

A Failure is a sentence with a status: 1 a socket failed or a reply is broken, 2 no answer, 3 the directory refused, 6 the request is too long, 64 wrong usage."""

import collections
import os
import re
import select
import socket
import struct
import time

SRV_RQST, SRV_RPLY, SRV_REG, SRV_DEREG, SRV_ACK, ATTR_RQST, ATTR_RPLY, DA_ADVERT, TYPE_RQST, TYPE_RPLY = range(1, 11)
NAMES = {SRV_RPLY: "SrvRply", SRV_ACK: "SrvAck", ATTR_RPLY: "AttrRply", DA_ADVERT: "DAAdvert", TYPE_RPLY: "SrvTypeRply"}
OVERFLOW, FRESH, MULTICAST, RESERVED_FLAGS = 0x8000, 0x4000, 0x2000, 0x1FFF
LANGUAGE_NOT_SUPPORTED = 1
IO, NO_ANSWER, REFUSED, PARTIAL, TOO_LONG, USAGE = 1, 2, 3, 5, 6, 64
DIRECTORIES = "service:directory-agent"

LONGEST_DATAGRAM, LONGEST = 1400, 65535
WAITS = (0, 2, 6, 14)  # when a datagram is sent (RFC 2608, section 6): again after 2 seconds, and then after twice as long each time
PATIENCE = 15  # CONFIG_RETRY_MAX, and as long again on a stream


class Failure(Exception):
    """Why there is no answer: a sentence, and a status."""

    def __init__(self, sentence, status, code=0):
        super().__init__(sentence)
        self.status, self.code = status, code


def broken(sentence):
    return Failure(f"the reply is broken: {sentence}", IO)


# ---- messages

# A message but for its number: its function, flags, body and language, and the functions that may answer it.
Request = collections.namedtuple("Request", "function flags body language answers")


def text(string):
    """A text with its length before it."""
    octets = string if isinstance(string, bytes) else string.encode("utf-8", "surrogateescape")
    if len(octets) > LONGEST:
        raise Failure("! too long", TOO_LONG)
    return struct.pack(">H", len(octets)) + octets


def entry(url, lifetime):
    return struct.pack(">BH", 0, lifetime) + text(url) + b"\0"


def services(kind, scopes, predicate="", language="en"):
    """A SrvRqst. What is asked for directories is answered by an advert."""
    answers = (DA_ADVERT, SRV_RPLY) if kind.lower().rstrip(":") == DIRECTORIES else (SRV_RPLY,)
    return Request(SRV_RQST, 0, text("") + text(kind) + text(scopes) + text(predicate) + text(""), language, answers)


def attributes(what, scopes, tags="", language="en"):
    return Request(ATTR_RQST, 0, text("") + text(what) + text(scopes) + text(tags) + text(""), language, (ATTR_RPLY,))


def types(scopes, authority=None, language="en"):
    """A SrvTypeRqst: of all types where there is no authority, and of those of IANA where it is empty."""
    named = b"\xff\xff" if authority is None else text(authority)
    return Request(TYPE_RQST, 0, text("") + named + text(scopes), language, (TYPE_RPLY,))


def registration(service, scopes, attrs="", language="en", is_fresh=True):
    """A SrvReg. A service is its URL, its type and its lifetime."""
    url, kind, lifetime = service
    body = entry(url, lifetime) + text(kind) + text(scopes) + text(attrs) + b"\0"
    return Request(SRV_REG, FRESH if is_fresh else 0, body, language, (SRV_ACK,))


def withdrawal(url, scopes, tags="", language="en"):
    return Request(SRV_DEREG, 0, text(scopes) + entry(url, 0) + text(tags), language, (SRV_ACK,))


def spelled(request, number):
    """The bytes of a request with its number."""
    head = text(request.language)
    length = 12 + len(head) + len(request.body)
    if length > LONGEST:
        raise Failure("! too long", TOO_LONG)
    return struct.pack(">BB", 2, request.function) + length.to_bytes(3, "big") + struct.pack(">H3xH", request.flags, number) + head + request.body


# ---- replies

# What a reply says. Fields that its function does not have are empty. Cut: the flag OVERFLOW is set.
Reply = collections.namedtuple("Reply", "function code is_cut number language services text boot url scopes attributes")


class Reader:
    """Reads the fields of a message from the front; what is missing is a fault."""

    def __init__(self, message, end):
        self.message, self.at, self.end = message, 0, end

    def octets(self, count, what):
        if self.at + count > self.end:
            raise broken(f"it ends within {what}")
        self.at += count
        return self.message[self.at - count : self.at]

    def number(self, count, what):
        return int.from_bytes(self.octets(count, what), "big")

    def text(self, what):
        octets = self.octets(self.number(2, f"the length of {what}"), what)
        try:
            return octets.decode()
        except UnicodeDecodeError:
            raise broken(f"{what} is not UTF-8") from None

    def blocks(self):
        """Authentication blocks, whose meaning nobody here knows (RFC 2608, section 9.2)."""
        for _ in range(self.number(1, "the count of authentication blocks")):
            self.octets(2, "an authentication block")
            length = self.number(2, "an authentication block")
            if length < 10:
                raise broken("an authentication block is shorter than its fields")
            self.octets(length - 4, "an authentication block")

    def entry(self):
        self.octets(1, "an entry")
        lifetime = self.number(2, "a lifetime")
        url = self.text("a URL")
        self.blocks()
        return url, lifetime


def number_of(message):
    """The number of a message, or None where it is too short for one."""
    return int.from_bytes(message[10:12], "big") if len(message) >= 12 else None


def head(message):
    """The header of a message, read: the reader behind it, its flags and its language."""
    it = Reader(message, len(message))
    version, _, length = it.number(1, "its header"), it.number(1, "its header"), it.number(3, "its header")
    flags, extension, _ = it.number(2, "its header"), it.number(3, "its header"), it.number(2, "its header")
    if version != 2:
        raise broken(f"it is of version {version}")
    if length != len(message):
        raise broken(f"it says that it has {length} bytes, and has {len(message)}")
    if flags & RESERVED_FLAGS:
        raise broken("a reserved flag is set")
    language = it.text("its language")
    if not re.fullmatch("[A-Za-z]{1,8}(-[A-Za-z0-9]{1,8})*", language):
        raise broken("its language is no language tag")
    if extension:
        if not it.at <= extension <= length - 5:
            raise broken("its extension begins outside of it")
        it.end = extension
    return it, flags, language


def listed(it, is_cut):
    """The services of a SrvRply. One that is cut has those that are whole."""
    found = []
    for _ in range(it.number(2, "the count of entries")):
        try:
            found.append(it.entry())
        except Failure:
            if not is_cut:
                raise
            it.at = it.end
            break
    return found


def read(message):
    """A reply, of whatever function. One with a code may end behind it (RFC 2608, section 7)."""
    it, flags, language = head(message)
    function, is_cut = message[1], bool(flags & OVERFLOW)
    if function not in NAMES:
        raise broken(f"function {function} is no reply")
    fields = {"services": [], "text": "", "boot": 0, "url": "", "scopes": "", "attributes": ""}
    code = it.number(2, "its code")
    if not (code and it.at == it.end) and not (is_cut and it.at == it.end):
        if function == SRV_RPLY:
            fields["services"] = listed(it, is_cut)
        elif function == ATTR_RPLY:
            fields["text"] = it.text("its attributes")
            it.blocks()
        elif function == TYPE_RPLY:
            fields["text"] = it.text("its types")
        elif function == DA_ADVERT:
            fields["boot"] = it.number(4, "its boot stamp")
            for name in ("url", "scopes", "attributes"):
                fields[name] = it.text(f"its {name}")
            it.text("its SPIs")
            it.blocks()
    if it.at != it.end:
        raise broken(f"{it.end - it.at} bytes stand behind its last field")
    return Reply(function, code, is_cut, number_of(message), language, **fields)


def judged(message, request, number):
    """The reply to a request, or why it is none."""
    reply = read(message)
    if reply.number != number:
        raise broken(f"it has the number {reply.number}, and not {number}")
    if reply.function not in request.answers:
        raise broken(f"it is {NAMES[reply.function]}, and not {' or '.join(NAMES[it] for it in request.answers)}")
    if reply.code:
        raise Failure(f"! code {reply.code}", REFUSED, reply.code)
    if reply.language.lower() != request.language.lower():
        raise broken(f"it is in the language {reply.language}, and not {request.language}")
    return reply


# ---- asking


def address_of(place, port=427):
    """HOST[:PORT] as an address. A name is looked up."""
    host, colon, named = place.rpartition(":") if ":" in place else (place, "", "")
    if colon:
        if not (named.isascii() and named.isdecimal() and 1 <= int(named) <= 65535):
            raise Failure(f"{named or 'nothing'} is no port", USAGE)
        port = int(named)
    if not host:
        raise Failure(f"{place!r} has no host", USAGE)
    try:
        return socket.getaddrinfo(host, port, socket.AF_INET, socket.SOCK_DGRAM)[0][4]
    except (OSError, UnicodeError):
        raise Failure(f"{host} has no address", IO) from None


def shown(address):
    return f"{address[0]}:{address[1]}"


class Client:
    """Asks directories in the order in which they are named. Where one is silent, refuses, or answers what is no reply, the next one is asked; note tells of it."""

    def __init__(self, addresses, note=lambda sentence: None, is_stream=False, clock=time.monotonic):
        self.addresses, self.note, self.is_stream, self.clock = list(addresses), note, is_stream, clock
        self.number = int.from_bytes(os.urandom(2), "big")

    def ask(self, request):
        """The first answer. Where there is none it raises the failure of the last directory, with its address."""
        failure = None
        for address in self.addresses:
            if failure:
                self.note(f"{failure}; {shown(address)} is asked")
            try:
                return self.ask_one(address, request)
            except Failure as e:
                if e.status == TOO_LONG:
                    raise
                failure = Failure(f"{e} ({shown(address)})", e.status, e.code)
        raise failure

    def ask_one(self, address, request):
        """The answer of one directory, by a stream where a datagram does not do."""
        self.number = self.number % 65535 + 1
        message = spelled(request, self.number)
        if not self.is_stream and len(message) <= LONGEST_DATAGRAM:
            reply = judged(self.by_datagram(address, message), request, self.number)
            if not reply.is_cut:
                return reply
        return judged(self.by_stream(address, message), request, self.number)

    def by_datagram(self, address, message):
        """The datagram that answers a message: one from the directory with its number. A port that is closed is asked again, since a server may be starting."""
        begin, sent, is_closed = self.clock(), 0, False
        with socket.socket(socket.AF_INET, socket.SOCK_DGRAM) as it:
            try:
                it.connect(address)
                while (now := self.clock() - begin) < PATIENCE:
                    if sent < len(WAITS) and now >= WAITS[sent]:
                        sent += 1
                        if not self.tried(it.send, message):
                            is_closed = True
                    due = WAITS[sent] if sent < len(WAITS) else PATIENCE
                    if not select.select([it], [], [], max(0.0, due - (self.clock() - begin)))[0]:
                        continue
                    came = self.tried(it.recv, LONGEST)
                    if not came:
                        is_closed = True
                    elif number_of(came) == number_of(message):
                        return came
                    if is_closed and len(self.addresses) > 1:
                        raise Failure("! no answer", NO_ANSWER)
            except OSError as e:
                raise Failure(f"! io: {e.strerror}", IO) from None
        raise Failure("! no answer", NO_ANSWER)

    @staticmethod
    def tried(call, argument):
        """What a call on a datagram socket gives, or nothing where the port of the directory is closed."""
        try:
            return call(argument)
        except ConnectionRefusedError:
            return b""

    def by_stream(self, address, message):
        """The message that answers one on a stream."""
        begin, came = self.clock(), b""
        try:
            with socket.create_connection(address, PATIENCE) as it:
                it.sendall(message)
                while len(came) < 5 or len(came) < int.from_bytes(came[2:5], "big"):
                    left = PATIENCE - (self.clock() - begin)
                    if left <= 0:
                        raise Failure("! no answer", NO_ANSWER)
                    it.settimeout(left)
                    piece = it.recv(65536)
                    if not piece:
                        raise broken("the stream ended before it did") if came else Failure("! io: the stream was closed without an answer", IO)
                    came += piece
        except TimeoutError:
            raise Failure("! no answer", NO_ANSWER) from None
        except OSError as e:
            raise Failure(f"! io: {e.strerror or e}", IO) from None
        return came[: int.from_bytes(came[2:5], "big")]


# ---- escapes (RFC 2608, section 5)

MARKS = "(),\\!<=>~"


def is_control(c):
    return c < " " or c == "\x7f"


def escaped(string, more=""):
    """A text with what is reserved in a value as escapes, and each character of more."""
    return "".join(f"\\{ord(c):02X}" if c in MARKS or c in more or is_control(c) else c for c in string)


def escaped_tag(string):
    return escaped(string, "*_")


def unescaped(string):
    """What a text with escapes stands for."""
    octets, at = b"", 0
    for found in re.finditer(r"\\([0-9A-Fa-f]{2})?", string):
        if not found[1]:
            raise Failure(f"byte {len(string[:found.start()].encode())}: two hexadecimal digits were expected after \\", USAGE)
        octets += string[at : found.start()].encode() + bytes.fromhex(found[1])
        at = found.end()
    try:
        return (octets + string[at:].encode()).decode()
    except UnicodeDecodeError:
        raise Failure("its escapes spell no UTF-8", USAGE) from None


def end_of_value(raw, at):
    """Where the `)` stands that ends values: the first that pairs with no `(` among them, and before a comma or the end; else the last such."""
    ends, depth = [], 0
    for place in range(at, len(raw)):
        if raw[place] == "(":
            depth += 1
        elif raw[place] == ")":
            is_last = re.match(r"\s*(,|$)", raw[place + 1 :]) is not None
            if depth <= 0 and is_last:
                return place
            depth -= 1
            if is_last:
                ends.append(place)
        if re.match(r"\)\s*,\s*\([^()=]+=", raw[place:]):
            return place
    return ends[-1] if ends else None


def escaped_list(raw):
    """An attribute list whose tags and values stand unescaped, as `(tag=value,value),keyword`. A comma among values parts them."""
    parts, at = [], 0
    while at < len(raw):
        at += len(raw[at:]) - len(raw[at:].lstrip())
        if raw[at : at + 1] == "(":
            equals = raw.find("=", at)
            end = end_of_value(raw, equals + 1) if equals > 0 else None
            if end is None:
                raise Failure(f"byte {len(raw[:at].encode())}: this attribute is none of the form (tag=value)", USAGE)
            values = ",".join(escaped(it) for it in raw[equals + 1 : end].split(","))
            parts.append(f"({escaped_tag(raw[at + 1 : equals])}={values})")
            at = end + 1
        else:
            end = raw.find(",", at) if "," in raw[at:] else len(raw)
            parts.append(escaped_tag(raw[at:end].strip()))
            at = end
        at += len(raw[at:]) - len(raw[at:].lstrip())
        if at < len(raw) and raw[at] != ",":
            raise Failure(f"byte {len(raw[:at].encode())}: a comma was expected after an attribute", USAGE)
        at += 1
    return ",".join(parts)
