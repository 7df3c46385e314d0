"""The attacks on a server, each of which tells what it sent, what came back, and what was lost."""

import collections
import multiprocessing.connection
import random
import socket
import struct
import threading
import time

from messages import LONGEST, Breaker, attributes, bombs, code_of, registration, services, types, withdrawal
from server import ASKED, ATTACKED, CONNECTIONS, ask, take

WINDOW, WEIGHT, OVERHEAD = 64, 49152, 768  # what is sent before a question has to be answered: so no buffer of the system overflows
LIVE = 32  # streams of a sender that are open at once
RESETTING = struct.pack("ii", 1, 0)
QUESTION, NOWHERE = services("service:printer"), types("nowhere")
PIECE, PIECE_WAITS = 85, 4  # questions in one piece of a stream, and for how many of them a datagram may wait
LEFT, LEFT_WAITS = 1.0, 0.2  # how long a long question takes at least, and how long what is sent to another address beside it may


class Told:
    """What an attack brought: what was sent, by kind; replies, by function and code; what was lost."""

    def __init__(self):
        self.sent, self.replies, self.lost = collections.Counter(), collections.Counter(), []

    def add(self, other):
        self.sent.update(other.sent)
        self.replies.update(other.replies)
        self.lost += other.lost

    def reply(self, reply, most=LONGEST):
        """Counts a reply, which has to be well formed; its code."""
        code = code_of(reply)
        if code is None or len(reply) > most:
            self.lost.append(f"this came as a reply: {reply[:100].hex()} ({len(reply)} bytes)")
        else:
            self.replies[reply[1], code] += 1
        return code


def side_by_side(attack, server, seed, count, seconds, times, meanwhile):
    """Runs an attack in so many processes, each with a part of the count, and tells of all. Each second something else is done."""
    pipes, told, end = [], Told(), time.monotonic() + seconds + 60
    for number in range(times):
        hears, tells = multiprocessing.Pipe(False)
        part = count // times + (number < count % times)
        words = (attack, tells, server, f"{seed}-{attack.__name__}-{number}", f"127.0.1.{number + 1}", part, seconds)
        multiprocessing.Process(target=guarded, args=words, daemon=True).start()
        tells.close()
        pipes.append(hears)
    while pipes and time.monotonic() < end:
        for hears in multiprocessing.connection.wait(pipes, 1):
            pipes.remove(hears)
            try:
                told.add(hears.recv())
            except EOFError:
                told.lost.append(f"a sender of {attack.__name__} failed")
        meanwhile()
    told.lost += [f"a sender of {attack.__name__} did not end"] * len(pipes)
    return told


def guarded(attack, tells, server, seed, source, count, seconds):
    server.leave()
    told = Told()
    try:
        attack(told, server, seed, source, count, time.monotonic() + seconds)
    except OSError as e:
        told.lost.append(f"a sender of {attack.__name__} met {e!r}")
    tells.send(told)


def datagrams(told, server, seed, source, count, end):
    """Broken datagrams. After each few a question has to be answered, so that none is sent that nobody takes; and at once, unless the system dropped one."""
    breaker, asker, sender = Breaker(seed), server.datagrams(source), server.datagrams(source)
    sender.setblocking(False)
    told.sent.update({kind: 0 for kind, _ in breaker.makers})
    left, number = count, 0
    while left > 0 and time.monotonic() < end and len(told.lost) < 3:
        weight, until, before = 0, max(0, left - WINDOW), server.dropped(ATTACKED)
        while left > until and weight < WEIGHT:
            kind, message = breaker.message()
            sender.send(message)
            told.sent[kind] += 1
            left -= 1
            weight += len(message) + OVERHEAD
        number += 1
        reply, times = ask(asker, NOWHERE[:10] + (number & 0xFFFF).to_bytes(2, "big") + NOWHERE[12:])
        told.sent["questions between them"] += times
        if reply is None:
            told.lost.append(f"a question after {count - left:,} datagrams was not answered")
        elif times == 2 and server.dropped(ATTACKED) == before:
            told.lost.append(f"a question after {count - left:,} datagrams got no answer at first, and the system dropped none")
        else:
            told.reply(reply, 1400)
        take_all(told, sender)
    told.sent["(not sent, since the time was over)"] += left


def take_all(told, sender):
    try:
        while True:
            told.reply(sender.recv(65535), 1400)
    except BlockingIOError:
        pass


def streams(told, server, seed, source, count, end):
    """Broken streams, of which some are open at once, and which take turns."""
    breaker, chance, live, begun = Breaker(seed), random.Random(seed), [], 0
    while len(told.lost) < 3:
        if begun < count and len(live) < LIVE and time.monotonic() < end:
            pieces, ending, messages = breaker.stream()
            live.append((server.stream(f"{source[:-1]}{10 + begun % 16}", seconds=10), pieces, ending))
            told.sent[f"streams, {ending}"] += 1
            told.sent["messages of these streams, some of them cut short"] += messages
            begun += 1
        elif not live:
            break
        at = chance.randrange(len(live))
        stream, pieces, ending = live[at]
        if not (pieces and sends(stream, pieces.pop(0))):
            live[at] = live[-1]
            live.pop()
            ends(told, stream, ending)
    told.sent["(streams not begun, since the time was over)"] += count - begun


def sends(stream, piece):
    try:
        stream.sendall(piece)
    except OSError:  # the server has closed it, as it does after a length that no message has
        return False
    return True


def ends(told, stream, ending):
    """Ends a stream. One that is half-closed the server has to end, once it has answered."""
    with stream:
        if ending == "reset":
            stream.setsockopt(socket.SOL_SOCKET, socket.SO_LINGER, RESETTING)
        elif ending == "half-closed":
            try:
                stream.shutdown(socket.SHUT_WR)
                while reply := take(stream):
                    told.reply(reply)
            except TimeoutError:
                told.lost.append("a half-closed stream was not ended by the server")
            except OSError:
                pass


def explode(server, bounds, say):
    """Sends each bomb on a stream, and measures how long its answers take; bounds are the seconds of a processor that they may take, the server's threads together."""
    told = Told()
    time.sleep(5)  # until what was registered for seconds leaves room
    for name, before, messages, code in bombs():
        if len(told.lost) > 2:
            break
        bound, waits, codes, spent = bounds[name], [], [], 0.0
        try:
            with server.stream("127.0.2.1", seconds=20 * bound + 20) as stream:
                for number, it in enumerate(before + messages):
                    if number == len(before):
                        spent = server.processor()
                    began = time.monotonic()
                    stream.sendall(it)
                    codes.append(told.reply(take(stream)))
                    waits.append(time.monotonic() - began)
        except OSError as e:
            told.lost.append(f"the bomb {name!r} met {e!r}")
            continue
        spent = server.processor() - spent
        del waits[: len(before)]
        told.sent["bombs"] += len(messages)
        each = f", the longest {max(waits):.3f} s" if len(messages) > 1 else ""
        say(f"  {sum(waits):8.3f} s, {spent:7.3f} of a processor  code {code}  {max(map(len, messages)):6,} bytes  {name}{each}")
        if codes != [0] * len(before) + [code] * len(messages):
            told.lost.append(f"the bomb {name!r} and what it needs brought codes {codes}")
        if spent > bound:
            told.lost.append(f"the bomb {name!r} took {spent:.1f} s of a processor, and may take {bound}")
    return told


def measured(stream, question):
    """How long one question on a stream takes, the shortest of five."""
    waits = []
    for _ in range(5):
        began = time.monotonic()
        stream.sendall(question)
        take(stream)
        waits.append(time.monotonic() - began)
    return min(waits)


def in_one_piece(server, say):
    """A long question many times in one piece of a stream: how long datagrams to the same address wait, who may wait for some of them, and not for all."""
    told, waits = Told(), []
    question = services("piece", predicate="(|" + "".join(f"(c={number})" for number in range(500)) + ")")
    with server.stream("127.0.2.1") as stream, server.datagrams("127.0.3.9") as asker:
        there = 0
        while there < 800:
            stream.sendall(registration(f"piece:{there}", "piece", attrs="(a=1),(b=2)", lifetime=600))
            if told.reply(take(stream)) != 0:
                break
            there += 1
        alone = measured(stream, question)
        bound = PIECE_WAITS * alone + 0.05
        reader = threading.Thread(target=lambda: [told.reply(take(stream)) for _ in range(PIECE)])
        reader.start()
        stream.sendall(question * PIECE)
        while reader.is_alive():
            began = time.monotonic()
            if ask(asker, NOWHERE)[0] is None:
                told.lost.append("beside many questions in one piece a datagram was not answered")
                break
            waits.append(time.monotonic() - began)
        reader.join()
        # they leave room for others
        for number in range(there):
            stream.sendall(withdrawal(f"piece:{number}"))
            told.reply(take(stream))
    longest = max(waits, default=0.0)
    told.sent["questions in one piece"] += PIECE
    say(f"  {PIECE} questions of {alone * 1000:.1f} ms in one piece: the longest of {len(waits):,} datagrams beside them waited {longest * 1000:.1f} ms")
    if longest > bound:
        told.lost.append(f"beside {PIECE} questions in one piece a datagram waited {longest:.3f} s, and may wait {bound:.3f}")
    return told


def beside_long(server, say):
    """Two long questions, and beside each registrations and questions at another address: what was gathered for it is left before it is answered, so they wait for none of it."""
    told, numbers = Told(), [f"{number:04}" for number in range(5000)]
    entries = [("tags", ",".join(f"t{it}" for it in numbers)), ("values", f"(a={','.join(f'v{it}' for it in numbers)})")]
    questions = [
        ("attributes", attributes("tags", tags=",".join(f"*{it}z*" for it in numbers[:3000]))),
        ("a filter", services("values", predicate=f"(|{''.join(f'(a=*{it}z*)' for it in numbers[:3000])})")),
    ]
    with server.stream("127.0.2.1", seconds=60) as stream, server.datagrams("127.0.3.9", ASKED) as other:
        for kind, attrs in entries:
            for number in range(10):
                stream.sendall(registration(f"{kind}:{number}", kind, attrs=attrs, lifetime=600))
                if told.reply(take(stream)) != 0:
                    told.lost.append(f"an entry of many {kind} was not registered")
        for what, question in questions:
            if not told.lost:
                beside(told, stream, other, f"a question of {len(question):,} bytes about {what}", question, say)
    return told


def beside(told, stream, other, what, question, say):
    """Registers and asks at another address until a question is answered, and tells where that waited for it."""
    waits = {"registrations": (registration("beside:1", "beside", lifetime=600), []), "questions": (NOWHERE, [])}
    reader = threading.Thread(target=lambda: told.reply(take(stream)))
    began = time.monotonic()
    stream.sendall(question)
    reader.start()
    while reader.is_alive():
        for message, took in waits.values():
            sent = time.monotonic()
            if ask(other, message)[0] is None:
                told.lost.append(f"beside {what} what was sent to another address was not answered")
            took.append(time.monotonic() - sent)
        time.sleep(0.002)
    lasted = time.monotonic() - began
    longest = {name: max(took, default=lasted) for name, (_, took) in waits.items()}
    told.sent["what was sent beside a long question"] += sum(len(took) for _, took in waits.values())
    seen = ", of ".join(f"{len(waits[name][1]):,} {name} {it * 1000:.1f} ms" for name, it in longest.items())
    say(f"  {lasted:8.3f} s  {what}: the longest at another address, of {seen}")
    if lasted < LEFT:
        told.lost.append(f"{what} took {lasted:.2f} s alone, so that nothing is seen beside it")
    if max(longest.values()) > LEFT_WAITS:
        told.lost.append(f"beside {what}, of {lasted:.2f} s, what was sent to another address waited {max(longest.values()):.3f} s, and may wait {LEFT_WAITS}")


# Connections


def opened(server, told, count, what, seconds=20):
    """So many streams, from eight addresses."""
    told.sent[what] += count
    return [server.stream(f"127.0.3.{1 + number % 8}", seconds=seconds) for number in range(count)]


def datagram_answered(server, told, what, seconds=2.0):
    with server.datagrams("127.0.3.9") as it:
        reply = ask(it, NOWHERE, seconds)[0]
    if reply is None:
        told.lost.append(f"{what} a datagram was not answered")
    else:
        told.reply(reply)


def stream_answered(server, told, what):
    try:
        with server.stream("127.0.3.9", seconds=5) as it:
            it.sendall(QUESTION)
            told.reply(take(it))
    except OSError as e:
        told.lost.append(f"{what} a stream met {e!r}")


def places(server, told):
    """More streams than places: those that have one are answered, the others are closed unread."""
    held, kept = opened(server, told, CONNECTIONS + 44, "streams, 44 more than places", 5), 0
    for it in held:
        try:
            it.sendall(QUESTION)
            if reply := take(it):
                told.reply(reply)
                kept += 1
        except TimeoutError:
            break
        except OSError:
            pass
    if kept != CONNECTIONS:
        told.lost.append(f"of {len(held)} streams {kept} had a place, not {CONNECTIONS}")
    datagram_answered(server, told, "while all places are taken")
    return held


def stalled(server, told, seconds):
    """Streams that say nothing, and some that send a byte a second: the rest of the places serve others."""
    silent, slow = opened(server, told, 100, "silent streams"), opened(server, told, 50, "streams of a byte a second")
    for second in range(seconds):
        for it in slow:
            it.sendall(QUESTION[second : second + 1])
        datagram_answered(server, told, "beside silent streams")
        stream_answered(server, told, "beside silent streams")
        time.sleep(1)
    for it in slow:
        it.sendall(QUESTION[seconds:])
        told.reply(take(it))
    return silent + slow


def half_closed(server, told):
    for it in opened(server, told, 200, "half-closed streams"):
        with it:
            it.sendall(QUESTION * 3)
            it.shutdown(socket.SHUT_WR)
            replies = [told.reply(take(it)) for _ in range(3)]
            if it.recv(1):
                told.lost.append(f"a half-closed stream got more than {len(replies)} answers")
    return []


def resets(server, told):
    for number in range(2000):
        for it in opened(server, told, 1, "reset streams"):
            it.setsockopt(socket.SOL_SOCKET, socket.SO_LINGER, RESETTING)
            it.sendall(QUESTION[: number % len(QUESTION)])
            it.close()
    return []


def filters(server, told, say):
    """A filter of 60,000 bytes on each stream at once: how long datagrams to the same address wait, who may wait for some of them, and not for all."""
    question, waits = services("nowhere", predicate="(|" + "(b=1)" * 11800 + ")"), []
    held = opened(server, told, CONNECTIONS, "streams with a filter of 60,000 bytes")
    alone = measured(held[0], question)
    sender = threading.Thread(target=lambda: [it.sendall(question) for it in held])
    reader = threading.Thread(target=lambda: [told.reply(take(it)) for it in held])
    sender.start()
    reader.start()
    with server.datagrams("127.0.3.9") as asker:
        while reader.is_alive():
            began = time.monotonic()
            if ask(asker, NOWHERE)[0] is None:
                told.lost.append("beside filters on all streams a datagram was not answered")
                break
            waits.append(time.monotonic() - began)
            time.sleep(0.002)
    sender.join()
    reader.join()
    longest, bound = max(waits, default=0.0), PIECE_WAITS * alone + 0.05
    say(f"  {len(held)} filters of {len(question):,} bytes and {alone * 1000:.1f} ms at once: the longest of {len(waits):,} datagrams beside them waited {longest * 1000:.1f} ms")
    if longest > bound:
        told.lost.append(f"beside {len(held)} filters at once a datagram waited {longest:.3f} s, and may wait {bound:.3f}")
    return held


def widen(server, told):
    """Registers what makes a reply about attributes as long as one can be, and returns the question that brings it."""
    question = attributes("w")
    with server.stream("127.0.2.1") as it:
        for number, (tag, size) in enumerate((("a", 60000), ("b", 5505))):
            it.sendall(registration(f"w:{number}", "w", attrs=f"({tag}={'x' * size})"))
            told.reply(take(it))
        it.sendall(question)
        if len(reply := take(it)) != LONGEST:
            told.lost.append(f"the longest reply has {len(reply)} bytes, not {LONGEST}")
    return question


def flood(server, told, questions, seconds, bound, streams=CONNECTIONS):
    """Streams that ask for the longest replies and read nothing: what the server holds of it, and how long datagrams wait, in words."""
    question = widen(server, told)
    before, most, longest = server.memory()[0], 0, 0
    held = opened(server, told, streams, "streams that ask and never read")
    for it in held:
        it.sendall(question * questions)
    end = time.monotonic() + seconds
    while (began := time.monotonic()) < end:
        datagram_answered(server, told, "beside streams that read nothing", bound)
        longest, most = max(longest, time.monotonic() - began), max(most, server.memory()[0])
        time.sleep(0.05)
    for it in held:
        it.setsockopt(socket.SOL_SOCKET, socket.SO_LINGER, RESETTING)
        it.close()
    server.calms(bound)
    time.sleep(1)
    taken = f"VmRSS {before:,} kB before, {most:,} at most, {server.memory()[0]:,} after: {(most - before) / streams:,.0f} kB a stream"
    return f"{questions} questions on each of {streams} streams, unread: {taken}; a datagram to the same address waited {longest:.2f} s"


def connections(server, bound, questions, say):
    told = Told()
    attacks = {
        "more streams than places": lambda: places(server, told),
        "silent streams": lambda: stalled(server, told, 6),
        "half-closed streams": lambda: half_closed(server, told),
        "resets": lambda: resets(server, told),
        "filters on all streams": lambda: filters(server, told, say),
        "streams that never read": lambda: say("  " + flood(server, told, questions, 5, bound)) or [],
    }
    for name, attack in attacks.items():
        for it in attack():
            it.close()
        if not server.calms(10):
            told.lost.append(f"after {name} {server.descriptors()} descriptors are open, not {server.calm}")
        stream_answered(server, told, f"after {name}")
    return told
