"""Names and messages of the DNS, written and read by RFC 1035, and the queries of a host, told by the list of the looks at them."""
import struct
from collections import namedtuple

SECOND = 1000000
A, CNAME, AAAA = 1, 5, 28
NO_SUCH_NAME = 3
GROUPS = ["ff02::fb", bytes([224, 0, 0, 251])]      # where mDNS is asked (RFC 6762, section 3)


# Writing

def name_of(*labels):
    return b"".join(bytes([len(label)]) + label for label in labels) + b"\0"


def plain_name(name):
    """The bytes of a name without pointers, of a name such as `www.example`."""
    return name_of(*name.encode().split(b"."))


def pointer(place):
    return struct.pack(">H", 0xC000 | place)


QUESTION_NAME = pointer(12)


def question_of(name, kind=A, group=1):
    """A question: its name is in bytes."""
    return name + struct.pack(">HH", kind, group)


def record_of(name, kind, data, group=1, ttl=60, length=None):
    return name + struct.pack(">HHIH", kind, group, ttl, len(data) if length is None else length) + data


def dns_message(ident, flags, question, records=(), questions=1, answers=None):
    counts = (questions, len(records) if answers is None else answers, 0, 0)
    return struct.pack(">HHHHHH", ident, flags, *counts) + question + b"".join(records)


# Reading

class Malformed(Exception):
    pass


def cut(data, at, size):
    if at + size > len(data):
        raise Malformed
    return data[at:at + size]


def name_at(message, at, end):
    """The labels of the name at a place, and the place behind it. The name stands in front of `end`."""
    labels, limit, behind, start = [], end, None, len(message)
    while True:
        if at >= limit:
            raise Malformed
        size = message[at]
        if size == 0:
            return labels, at + 1 if behind is None else behind
        if size >= 0xC0:
            if at + 2 > limit:
                raise Malformed
            target = (size & 0x3F) << 8 | message[at + 1]
            behind = at + 2 if behind is None else behind
            # the first pointer leads anywhere in the message, the next ones to a place in front of the last one's
            if target >= start:
                raise Malformed
            limit, at, start = start, target, target
        elif size > 63 or at + 1 + size > limit:
            raise Malformed
        else:
            labels.append(message[at + 1:at + 1 + size])
            at += 1 + size


def answers_of(message, at, count):
    """Each record's labels, type, and address or target: all of them read whole."""
    records = []
    for _ in range(count):
        owner, at = name_at(message, at, len(message))
        kind, group, _, size = struct.unpack(">HHIH", cut(message, at, 10))
        at += 10
        data, value = cut(message, at, size), None
        if group != 1:
            raise Malformed
        if kind in (A, AAAA):
            if size != (4 if kind == A else 16):
                raise Malformed
            value = data
        if kind == CNAME:
            value, behind = name_at(message, at, at + size)
            if behind != at + size or len(name_of(*value)) > 255:
                raise Malformed
        records.append((owner, kind, value))
        at += size
    return records


def addresses_for(message, labels, kind):
    """The addresses that a response gives to a question: none of a chain without an address, `None` where it decides nothing."""
    try:
        asked, at = name_at(message, 12, len(message))
        if struct.unpack(">HH", cut(message, at, 4)) != (kind, 1) or asked != labels:
            return None
        records = answers_of(message, at + 4, struct.unpack(">H", message[6:8])[0])
    except Malformed:
        return None
    addresses = []
    for owner, record, value in records:
        if owner == labels and record == CNAME:
            labels = value
        elif owner == labels and record == kind and kind in (A, AAAA):
            addresses.append(value)
    return addresses[:4]


# Queries

def fault_of(labels):
    """What is wrong with a name first, from its front."""
    size = 0
    for label in labels:
        if not 1 <= len(label) <= 63:
            return "invalid-name"
        size += 1 + len(label)
        if size > 255:
            return "name-too-long"
    return "name-too-long" if size + 1 > 255 else None


def labels_of(name):
    """The labels of a name: one closing point is none of them."""
    data = name.encode()
    return (data[:-1] if data.endswith(b".") else data).split(b".")


Look = namedtuple("Look", "at to")


class Query:
    """A query that was started: what it asks for, and each look at it with where a message went, if one did."""

    def __init__(self, number, labels, kind, words):
        self.number, self.labels, self.kind = number, labels, kind
        self.ident, self.port = words[1] % 65536, 1025 + words[2] % 64511
        self.looks, self.outcome = [], None

    def is_local(self):
        return self.labels[-1] == b"local"

    def turns(self, *more):
        """The looks of each turn of ten seconds, with a look more if one is given."""
        turns = []
        for look in self.looks + list(more):
            if not turns or look.at > turns[-1][0].at + 10 * SECOND:
                turns.append([])
            turns[-1].append(look)
        return turns

    def due(self, turn):
        sent = [look.at for look in turn if look.to is not None]
        return sent[-1] + min(2 ** (len(sent) - 1), 10) * SECOND if sent else 0

    def is_due(self, now):
        turns = self.turns()
        return not turns or self.due(turns[-1]) <= now

    def asked(self):
        sent = [look.to for look in self.looks if look.to is not None]
        return sent[-1] if sent else None

    def is_right(self, source, port):
        """Whether a response comes from where the query was sent last."""
        if self.asked() is None:
            return False
        return port == 5353 if self.is_local() else port == 53 and source == self.asked()

    def message(self):
        return dns_message(self.ident, 0x0100, question_of(name_of(*self.labels), self.kind))


class Queries:
    """The queries of a host in their places."""

    def __init__(self):
        self.places, self.count = [None] * 16, 0

    def pending(self):
        return [query for query in self.places if query is not None and query.outcome is None]

    def start(self, name, kind, words):
        """Why a query is refused, if it is."""
        number, labels = self.count, labels_of(name)
        self.count += 1
        fault = fault_of(labels)
        if fault is None and None not in self.places:
            fault = "no-free-slot"
        if fault is not None:
            return [f"query {number} refused {fault}"]
        self.places[self.places.index(None)] = Query(number, labels, kind, words)
        return []

    def hear(self, source, ports, message):
        """What a datagram of a server says to the queries."""
        if len(message) < 12:
            return
        ident, flags, questions = struct.unpack(">HHH", message[:6])
        if not flags & 0x8000 or flags & 0x7800 or questions != 1:
            return
        reached = [query for query in self.pending()
                   if (query.ident, query.port) == (ident, ports[1]) and query.is_right(source, ports[0])]
        if flags & 15 == NO_SUCH_NAME:
            for query in reached:
                query.outcome = []
        elif reached:
            reached[0].outcome = addresses_for(message, reached[0].labels, reached[0].kind)

    def look(self, now, servers, source, hop_of):
        """The messages of an event, each with its query, place, target and hop; and the target whose hop is not known, if any."""
        sent, passes = [], False
        for place, query in enumerate(self.places):
            behind = [other for other in self.places[place:] if other in self.pending()]
            if not passes and not any(other.is_due(now) for other in behind):
                return sent, None
            passes = True
            if query is None or query.outcome is not None:
                continue
            turns = query.turns(Look(now, None))
            listed = GROUPS if query.is_local() else servers
            at, to = len(turns) - 1, None
            if at >= len(listed):
                query.outcome = []
            elif now >= query.due(turns[-1]):
                to = listed[at]
                if source is None or isinstance(to, str):       # no source of IPv6
                    query.outcome = []
                else:
                    hop = hop_of(to)
                    query.looks.append(Look(now, None if hop is None else to))
                    if hop is None:
                        return sent, to
                    sent.append((query, at, to, hop))
                    passes = False
                    continue
            query.looks.append(Look(now, None))
        return sent, None

    def ended(self):
        """The lines of the queries that ended, whose places are free from then on."""
        over = sorted((query for query in self.places if query is not None and query.outcome is not None), key=lambda q: q.number)
        self.places = [None if query in over else query for query in self.places]
        return [f"query {query.number} " + ("answered " + ",".join(map(text_of, query.outcome)) if query.outcome else "failed")
                for query in over]


def text_of(address):
    if len(address) == 4:
        return ".".join(map(str, address))
    return ":".join(address[at:at + 2].hex() for at in range(0, 16, 2))
