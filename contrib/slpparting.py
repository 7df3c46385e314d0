"""How slpls and slp list services that no one reply holds (65,535 bytes, some 1,000 URLs of 58 bytes): they are asked for in parts, by what attributes say."""

import collections
import re

import slpclient

SAMPLES = 8  # services of a reply that is cut whose attributes are looked at
MOST = 3000  # questions about one type in one scope; then what is left is not parted any more
BLANKS = " \t\r\n"


def value_of(spelling):
    """A value by its kind, as RFC 2608, section 5 has it: what tells values apart in a predicate."""
    spelling = spelling.strip(BLANKS)
    if spelling[:3].lower() == "\\ff":
        return "opaque", spelling
    plain = re.sub(f"[{BLANKS}]+", " ", slpclient.unescaped(spelling)).strip(" ").casefold()
    if plain in ("true", "false"):
        return "truth", plain
    if re.fullmatch("-?[0-9]+", plain) and -(2**31) <= int(plain) < 2**31:
        return "number", int(plain)
    return "text", plain


def known_of(attributes):
    """The values of each tag of an attribute list. Tags stay as they are spelled; one without values has none."""
    known = {}
    for tag, values, keyword in re.findall(r"\(([^()=]+)=([^()]*)\)|([^(),]+)", attributes):
        try:
            found = {value_of(it) for it in values.split(",")} if tag else set()
        except slpclient.Failure:
            continue
        known.setdefault((tag or keyword).strip(BLANKS), set()).update(found)
    return {tag: values for tag, values in known.items() if tag}


def merged(known, more):
    return {tag: known.get(tag, set()) | more.get(tag, set()) for tag in known.keys() | more.keys()}


def spelled(plain):
    """The text of a value as a predicate has it."""
    return slpclient.escaped(plain, "*")


def text_parts(tag, texts, begin):
    """A predicate for each character that stands behind a beginning, with the beginning that it makes. A blank at the end would mean nothing."""
    groups = set()
    for it in texts:
        rest = it[len(begin) :]
        groups.add(rest[:2] if rest[:1] == " " else rest[:1])
    for more in sorted(groups):
        yield (f"({tag}={spelled(begin + more)}*)", begin + more) if more else (f"({tag}={spelled(begin)})", None)


def number_parts(tag, numbers):
    """Two halves of the numbers, or the one number."""
    numbers = sorted(numbers)
    if len(numbers) == 1:
        yield f"({tag}={numbers[0]})", None
        return
    middle = numbers[len(numbers) // 2 - 1]
    yield f"({tag}<={middle})", (None, middle)
    yield f"({tag}>={middle + 1})", (middle + 1, None)


def parts_by(tag, values, begin):
    """Predicates that part services by a tag, each with the test of the values that may still part what it is about, or nothing. Without a value the tag itself parts them."""
    numbers, texts = ({it for its, it in values if its == kind} for kind in ("number", "text"))
    parts = []
    for item, more in text_parts(tag, texts, begin):
        parts.append((item, more, more and (lambda it, more=more: it[0] == "text" and it[1].startswith(more))))
    for item, ends in number_parts(tag, numbers) if numbers else ():
        parts.append((item, "", ends and (lambda it, ends=ends: it[0] == "number" and (ends[0] is None or it[1] >= ends[0]) and (ends[1] is None or it[1] <= ends[1]))))
    parts.extend((f"({tag}={it})", "", None) for kind, it in sorted(values) if kind in ("truth", "opaque"))
    return parts or [(f"({tag}=*)", "", None)]


# What is asked for in parts: the items that hold of it, the values that may part it, those that did, and for each tag the test of the values that it has there
# and the beginning of its texts.
Branch = collections.namedtuple("Branch", "items known seen tests begins")


def promise(tag, known, samples):
    """How well a tag may part services: by how many values some of them have of it, fewer where each has several; then by how many are known."""
    told = [it[tag] for it in samples if tag in it]
    each = sum(map(len, told)) / len(told) if told else 0
    apart = len(set().union(*told)) / each if each else float(0 < len(told) < len(samples))
    return apart, len(known[tag])


class Parting:
    """The services of a type in scopes, of one language, on which a predicate holds. Found has their lifetimes, rests the predicates of what could not be parted."""

    def __init__(self, client, kind, scopes, language="en"):
        self.client, self.kind, self.scopes, self.language = client, kind, scopes, language
        self.found, self.rests, self.asked, self.told = {}, [], 0, {}

    def ask(self, items):
        """Asks for the services on which all items hold: whether the reply was cut, and its services."""
        predicate = items[0] if len(items) == 1 else f"(&{''.join(items)})" if items else ""
        self.asked += 1
        try:
            reply = self.client.ask(slpclient.services(self.kind, self.scopes, predicate, self.language))
        except slpclient.Failure as e:
            if e.code == slpclient.LANGUAGE_NOT_SUPPORTED:
                return False, []
            if e.status == slpclient.TOO_LONG:
                return True, []
            raise
        self.found.update(reply.services)
        return reply.is_cut, [url for url, _ in reply.services]

    def attributes(self, what):
        """The values of each tag of a service or a type, as far as they are known in this language."""
        if what not in self.told:
            self.asked += 1
            try:
                self.told[what] = known_of(self.client.ask(slpclient.attributes(what, self.scopes, "", self.language)).text)
            except slpclient.Failure as e:
                if e.status != slpclient.REFUSED:
                    raise
                self.told[what] = {}
        return self.told[what]

    def begin(self, items):
        """Lists all, in parts where that is needed. What the reply that is cut has stays out of found, since parts have one language, and a reply without a filter all."""
        is_cut, urls = self.ask(items)
        if is_cut:
            self.found = {}
            self.part(Branch(items, self.attributes(self.kind), {}, {}, {}), urls)

    def learned(self, branch, samples):
        """The values that may part a branch: those that are known, and those of some of its services that parted nothing yet."""
        known = branch.known
        for each in samples:
            fresh = {tag: {it for it in values - branch.seen.get(tag, set()) if branch.tests.get(tag, bool)(it)} for tag, values in each.items()}
            known = merged(known, {tag: values for tag, values in fresh.items() if values or tag not in branch.seen})
        return known

    def part(self, branch, urls):
        """Asks in parts for what was cut. No service is in none of them: the last part is those that are in no other."""
        samples = [self.attributes(it) for it in urls[:: max(1, len(urls) // SAMPLES)]]
        known = self.learned(branch, samples)
        if not known or self.asked > MOST:
            self.rests.append("".join(branch.items))
            return
        tag = max(sorted(known), key=lambda it: promise(it, known, samples))
        parts = parts_by(tag, known[tag], branch.begins.get(tag, ""))
        others = {it: values for it, values in known.items() if it != tag}
        rest = branch._replace(known=others, seen=merged(branch.seen, {tag: known[tag]}))
        for item, begin, test in parts:
            its = rest._replace(items=[*branch.items, item])
            if test:
                values = set(filter(test, known[tag]))
                its = its._replace(known={**others, tag: values}, tests={**branch.tests, tag: test}, begins={**branch.begins, tag: begin})
            self.go_on(its)
        self.go_on(rest._replace(items=[*branch.items, *(f"(!{item})" for item, _, _ in parts)]))

    def go_on(self, branch):
        is_cut, urls = self.ask(branch.items)
        if is_cut:
            self.part(branch, urls)
