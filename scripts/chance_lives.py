"""Lives of chance of a host: events whose frames are mostly those of a right server, of right name servers and of neighbours."""
from plain_frames import (ACK, BROADCAST, DISCOVER, EVERYBODY, HOST, LEASED, NAK, NAMES, OFFER, ROUTER, SERVER, STATION,
                          UNSPECIFIED, arp_frame, dhcp_message, flipped, reply, secs, tagged, udp_frame)
from plain_host import FRAME, QUERY, RESET, SECOND, TICK, TYPED_QUERY, Event, Host, settings_of
from plain_names import A, AAAA, CNAME, QUESTION_NAME, dns_message, name_of, plain_name, pointer, question_of, record_of

STEPS = [0, 0, 0, 1, 999999, 1000000, 4999999, 5000000, 10000000, 30000000, 59999999, 60000000, 62500000, 300000000, 500000000,
         2 ** 31 * SECOND]
SPANS = [0, 1, 2, 3, 60, 120, 1000, 100000, 0xFFFFFFFF]


def spoilt(chance, frame):
    """A frame with a change that mostly makes it another one."""
    way = chance.randrange(7)
    if way == 0:
        other = flipped(frame, chance.randrange(len(frame)), 1 << chance.randrange(8))
        return other if other[14] >> 4 != 6 else frame    # the note of plain_host.py is none of IPv6
    if way == 1:
        return frame[:chance.randrange(len(frame))]
    if way == 2:
        return tagged(frame)
    if way == 3:
        return frame + bytes(chance.randrange(1, 30))
    if way == 4:
        return chance.choice([BROADCAST, SERVER, b"\1" * 6]) + frame[6:]
    if way == 5:
        return frame[:40] + bytes(2) + frame[42:]
    return frame[:26] + bytes(chance.choice([UNSPECIFIED, EVERYBODY, STATION, bytes([224, 0, 0, 1])])) + frame[30:]


def answer_of_chance(chance, ident):
    """A message of the server whose options are those of an offer or an acknowledgement, and others."""
    kind = chance.choice([OFFER, ACK, ACK, ACK, NAK, DISCOVER, 7])
    options = [(53, bytes([kind]))]
    for key, values in [
        (54, [ROUTER, STATION]), (3, [ROUTER, STATION + ROUTER, bytes([10, 0, 0, 1]), UNSPECIFIED, ROUTER[:3]]),
        (1, [bytes([255, 255, 255, 0]), EVERYBODY, UNSPECIFIED, bytes([255, 0, 255, 0]), bytes([255, 255, 255, 128])]),
        (51, [secs(span) for span in SPANS]), (58, [secs(span) for span in SPANS]), (59, [secs(span) for span in SPANS]),
        (6, [NAMES, UNSPECIFIED + ROUTER * 4]), (51, [b"\1", secs(50)]), (0x0C, [b"name"])]:
        if chance.random() < {54: 0.95, 3: 0.8, 1: 0.95}.get(key, 0.5):
            options.append((key, values[0] if chance.random() < 0.6 else chance.choice(values)))
    yours = LEASED if chance.random() < 0.8 else chance.choice([STATION, UNSPECIFIED, bytes([10, 9, 8, 7])])
    source = ROUTER if chance.random() < 0.9 else bytes([10, 0, 0, 1])
    message = dhcp_message(kind, ident if chance.random() < 0.95 else 1, options, yours=yours)
    return udp_frame((SERVER, HOST), (source, chance.choice([EVERYBODY, LEASED])), (67, 68), message)


def life_of_chance(chance):
    words = [word for word in (f"lease={chance.choice(SPANS)}", "naks=ignore", f"mtu={chance.randrange(576, 1501)}")
             if chance.random() < 0.2]
    host, now, events = Host(settings_of(words)), 0, []
    for _ in range(chance.randrange(1, 40)):
        step = chance.choice(STEPS[:-1]) if chance.random() < 0.99 else STEPS[-1]
        now = min(now + step * chance.choice([1, 1, 1, 2, 7]), 2 ** 32 * SECOND - 1)
        ident = host.messages[-1].ident if host.messages else 1
        what = chance.random()
        if what < 0.3:
            event = Event(TICK, now)
        elif what < 0.33:
            event = Event(RESET, now)
        elif what < 0.38:
            name = chance.choice(["", "a", "example.com", "bücher.example", "a" * 255])
            event = Event(chance.choice([QUERY, TYPED_QUERY]), now, name=name)
            event = event._replace(asks=chance.choice([1, 28])) if event.kind == TYPED_QUERY else event
        else:
            if what < 0.6:
                frame = reply(OFFER if host.anchor.kind == "loss" else ACK, ident, lease=chance.choice(SPANS))
            elif what < 0.8:
                frame = answer_of_chance(chance, ident)
            else:
                sender = chance.choice([ROUTER, ROUTER, STATION, UNSPECIFIED])
                frame = arp_frame(chance.choice([1, 2, 2, 3]), sender, chance.choice([LEASED, LEASED, STATION]))
            event = Event(FRAME, now, spoilt(chance, frame) if chance.random() < 0.15 else frame)
        events.append(event)
        host.handle(event)
    return words, events


# What queries ask for: names, and what is none
ASKED_NAMES = ["a", "www.example", "www.example", "example.com.", "bücher.example", "a.b.c.d.e", "local", "printer.local",
               "local.example", "x" * 63, ".".join(["x" * 63] * 3 + ["y" * 61]), ".".join(["x" * 63] * 3 + ["y" * 61]) + ".",
               ".".join(["x" * 63] * 3 + ["y" * 62]), "", ".", "a..b", ".a", "a..", "x" * 64, "x." * 64 + "x" * 64, "x." * 127 + "x"]
SERVER_LISTS = [NAMES, NAMES, NAMES + STATION, ROUTER + NAMES + STATION, bytes([10, 0, 0, 53]) + NAMES,
                NAMES + UNSPECIFIED + STATION * 3, UNSPECIFIED, NAMES[:3]]
PAUSES = [0, 0, 0, 0, 1, 500000, 500000, 999999, 1000000, 1000000, 2000000, 4000000, 8000000, 10000000, 10000001, 60000000]
TARGETS = [b"\3web" + QUESTION_NAME, plain_name("other.example"), name_of(*[b"z" * 63] * 3, b"z" * 61),
           name_of(*[b"z" * 63] * 3, b"z" * 62), QUESTION_NAME, pointer(2), b"\0", b"\0\0"]


def response_of_chance(chance, query):
    """A message of a name server about a query: mostly one that answers it."""
    asked_name, place = name_of(*query.labels), 12
    question = question_of(asked_name, query.kind)
    place += len(question)
    owner, records = chance.choice([QUESTION_NAME, asked_name]), []
    for _ in range(chance.choice([0, 1, 1, 1, 2, 3, 4, 6])):
        kind = chance.choice([query.kind] * 4 + [CNAME, CNAME, A, AAAA, 16])
        on_chain = chance.random() < 0.8
        mine = owner if on_chain else chance.choice([b"\3off" + QUESTION_NAME, pointer(place), b"\0"])
        if kind == CNAME:
            here = pointer(place + len(mine) + 10)
            data = chance.choice(TARGETS + [pointer(place), here])
            owner = here if on_chain else owner
        else:
            data = bytes(chance.randrange(256) for _ in range({A: 4, AAAA: 16}.get(kind, 5)))
        group = 1 if chance.random() < 0.98 else 3
        length = None if chance.random() < 0.98 else chance.choice([0, 3, 5, 300])
        records.append(record_of(mine, kind, data, group, 60, length))
        place += len(records[-1])
    flags, questions, answers, ident, port = 0x8180, 1, len(records), query.ident, query.port
    source, source_port = query.asked() or NAMES, 53
    if chance.random() < 0.25:
        way = chance.randrange(11)
        flags = chance.choice([0x0180, 0x8980, 0x8182, 0x8380, 0xFFF0]) if way == 0 else 0x8183 if way in (1, 2) else flags
        questions = chance.choice([0, 2]) if way == 3 else 1
        answers += chance.choice([-1, 1]) if way == 4 and records else 0
        ident ^= 1 << chance.randrange(16) if way == 5 else 0
        port ^= 1 << chance.randrange(10) if way == 6 else 0
        source = chance.choice([NAMES, ROUTER, STATION]) if way in (7, 8) else source
        source_port = chance.choice([5353, 54, 67]) if way == 9 else 53
        question = question_of(plain_name("other.example"), query.kind) if way == 10 else question
        question = question_of(asked_name, chance.choice([A, AAAA, 2]), chance.choice([1, 1, 3])) if way == 8 else question
    message = dns_message(ident, flags, question, records, questions, answers)
    message = message if chance.random() < 0.95 else message[:chance.randrange(len(message))]
    return udp_frame((SERVER, HOST), (source, chance.choice([LEASED, EVERYBODY])), (source_port, port), message)


def lookups_of_chance(chance):
    """A life with a lease, whose queries are answered, forged, or lost."""
    words = [word for word in (f"lease={chance.choice([3, 60, 1000])}", "naks=ignore") if chance.random() < 0.1]
    host, now, events = Host(settings_of(words)), 0, []

    def add(event):
        events.append(event)
        host.handle(event)

    def last_id():
        return host.messages[-1].ident if host.messages else 1

    names = chance.choice(SERVER_LISTS)
    for kind in (None, OFFER, ACK):
        add(Event(FRAME, now, reply(kind, last_id(), names=names)) if kind else Event(TICK, now))
    if chance.random() < 0.7:
        add(Event(FRAME, now, arp_frame(2, NAMES, LEASED)))
    for _ in range(chance.randrange(5, 50)):
        now += chance.choice(PAUSES)
        what, pending = chance.random(), host.queries.pending()
        heard = [query for query in pending if query.asked() is not None] or pending
        if what < 0.25:
            name = chance.choice(ASKED_NAMES[:9] if chance.random() < 0.8 else ASKED_NAMES)
            add(chance.choice([Event(QUERY, now, name=name), Event(TYPED_QUERY, now, name=name, asks=chance.choice([A, AAAA]))]))
        elif what < 0.4:
            sender = chance.choice([NAMES, NAMES, STATION, ROUTER])
            add(Event(FRAME, now, arp_frame(chance.choice([1, 2]), sender, LEASED, (b"\2\0\0\0\0" + sender[3:], HOST))))
        elif what < 0.75 and pending:
            frame = response_of_chance(chance, chance.choice(heard))
            add(Event(FRAME, now, spoilt(chance, frame) if chance.random() < 0.05 else frame))
        elif what < 0.8:
            kind = NAK if chance.random() < 0.1 else OFFER if host.anchor.kind == "loss" else ACK
            add(Event(FRAME, now, reply(kind, last_id(), names=chance.choice(SERVER_LISTS))))
        elif what < 0.81:
            add(Event(RESET, now))
        else:
            add(Event(TICK, now))
    return words, events
