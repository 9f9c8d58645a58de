"""Scripts of chance for a lease server: few clients and few addresses, and times at the edges of offers and leases."""
import struct
from plain_frames import (BROADCAST, DISCOVER, EVERYBODY, HOST, NAK, OFFER, REQUEST, UNSPECIFIED, arp_frame, dhcp_message, flipped, number,
                          tagged, udp_frame)
from plain_host import SECOND
from plain_server import RELEASE, Server, Values, request_of

DECLINE, INFORM = 4, 8
HARDWARE, ADDRESS = bytes.fromhex("020000000001"), bytes([10, 0, 0, 1])


def values_of_chance(chance):
    first = chance.choice([2, 2, 9])
    return Values(HARDWARE, ADDRESS, bytes([10, 0, 0, first]), chance.randrange(1, 5), chance.choice([24, 28, 30 if first == 2 else 24, 8]),
                  chance.choice([1, 59, 60, 61, 600, 2 ** 32 - 1]))


def fits(values):
    """The range lies in the server's network."""
    span = 32 - values.prefix
    last = number(values.first) + values.count - 1
    return number(values.address) >> span == number(values.first) >> span == last >> span


def words_of(values, most):
    dotted = [".".join(map(str, address)) for address in (values.address, values.first)]
    return ["serve", values.hardware.hex(), *dotted, str(values.count), str(values.prefix), str(values.lease), str(most)]


def frame_of_chance(chance, server, now):
    """A frame from one of some clients, mostly one that the server reads."""
    values = server.values
    client = b"\2\7\0\0\0" + bytes([chance.randrange(4)])
    mine = server.held(client, now)
    some = [None, values.first, *server.range, bytes([10, 0, 0, 250]), bytes([192, 168, 9, 9])]
    kind = chance.choice([DISCOVER] * 6 + [REQUEST] * 8 + [RELEASE] * 2) if chance.random() < 0.93 else chance.choice([OFFER, NAK, DECLINE, INFORM, 77])
    asked = mine if chance.random() < 0.85 else chance.choice(some)
    own = mine if mine is not None and chance.random() < 0.8 else chance.choice([*some[1:], UNSPECIFIED, UNSPECIFIED])
    own = UNSPECIFIED if kind != RELEASE and chance.random() < 0.6 else own
    options = [(53, bytes([kind])), (61, b"\1" + client)]
    if chance.random() < 0.6:
        options.append((54, values.address if chance.random() < 0.85 else bytes([10, 0, 0, 2])))
    if asked is not None and chance.random() < 0.85:
        options.append((50, asked))
    message = dhcp_message(kind, chance.getrandbits(32), options, client=own, hardware=client)
    if chance.random() < 0.3:
        message = message[:10] + struct.pack(">H", chance.choice([0x8000, 0xFFFF, 1])) + message[12:]
    source = chance.choice([UNSPECIFIED] * 16 + [bytes([10, 0, 0, 77])] * 3 + [EVERYBODY, bytes([224, 0, 0, 1])])
    to = chance.choice([BROADCAST] * 12 + [values.hardware] * 3 + [HOST])
    ports = chance.choice([(68, 67)] * 30 + [(67, 68), (68, 68), (1068, 67)])
    frame = udp_frame((client, to), (source, EVERYBODY), ports, message)
    spoilt = chance.random()
    if spoilt < 0.05:
        frame = flipped(frame, chance.randrange(len(frame)), 1 << chance.randrange(8))
    elif spoilt < 0.07:
        frame = tagged(frame)
    elif spoilt < 0.09:
        frame = frame[:chance.randrange(len(frame))]
    elif spoilt < 0.12:
        frame += bytes(chance.randrange(1, 9))
    return frame


def events_of_chance(chance, values):
    """Times and frames; no frame is a tick."""
    server, now, ends, events = Server(values), 0, [], []
    for _ in range(chance.randrange(1, 40)):
        moments = [now, now, now + 1, now + 1, now + chance.randrange(5 * SECOND), now + chance.randrange(100 * SECOND)]
        edge = chance.choice(ends) if ends else now
        moments += [edge + step for step in (-1, 0, 1)]
        now = min(max(now, chance.choice(moments)), 2 ** 32 * SECOND - 1)
        draw = chance.random()
        if draw < 0.1:
            events.append((now, None))
            continue
        if draw < 0.16:
            target = chance.choice([values.address, values.address, values.first])
            frame = arp_frame(chance.choice([1, 1, 2]), bytes([10, 0, 0, 99]), target, (b"\2\7\0\0\0\7", chance.choice([BROADCAST, HARDWARE])))
        else:
            frame = frame_of_chance(chance, server, now)
        events.append((now, frame))
        request = request_of(frame, values.hardware)
        if request is not None:
            kind, _ = server.answer(now, request)
            if kind in ("offer", "ack"):
                ends += [now + 60 * SECOND, now + values.lease * SECOND]
    return events


def serving_of_chance(chance):
    values = values_of_chance(chance)
    while not fits(values) or values.address in Server(values).range:
        values = values_of_chance(chance)
    return values, events_of_chance(chance, values)
