"""A DHCP server as docs/SERVE.md tells it: who holds which address is found from the list of its answers, and each frame from that."""
import struct
from collections import namedtuple
from plain_frames import (ACK, BROADCAST, DISCOVER, EVERYBODY, MAGIC, NAK, OFFER, REQUEST, UNSPECIFIED, arp_frame, arp_packet, datagram,
                          dhcp_message, is_unicast, number, options_of, secs, udp_frame)
from plain_host import SECOND

RELEASE = 7
OFFERED = 60 * SECOND
Values = namedtuple("Values", "hardware address first count prefix lease")
Request = namedtuple("Request", "kind op ident flags mine client options")
Answer = namedtuple("Answer", "client at kind address")


def request_of(frame, hardware):
    """The message that a frame brings from a client's port to that of servers, if it brings one; None where the frame brings none."""
    if frame[:6] != hardware and not (frame[:1] and frame[0] & 1):
        return None
    parts = datagram(frame, lambda source: source == UNSPECIFIED or is_unicast(source))
    if parts is None or parts[1] != (68, 67):
        return None
    data = parts[2]
    if len(data) < 240 or data[1:3] != b"\1\6" or data[236:240] != MAGIC:
        return None
    options = options_of(data[240:])
    if 53 not in options or data[0] != (2 if options[53][0] in (OFFER, ACK, NAK) else 1):
        return None
    return Request(options[53][0], data[0], number(data[4:8]), number(data[10:12]), data[12:16], data[28:34], options)


class Server:
    """What a server answered so far."""

    def __init__(self, values):
        self.values = values
        first = number(values.first)
        self.range = [(first + place).to_bytes(4, "big") for place in range(values.count)]
        self.answers = []

    def held(self, client, now):
        """The address that a client holds at a time: that of its last offer or acknowledgement, up to the latest end of those since it
        got the address, and none once it was released."""
        address, end = None, 0
        for answer in self.answers:
            if answer.client != client:
                continue
            if answer.kind == "released":
                address, end = None, 0
            elif answer.kind in ("offer", "ack"):
                span = OFFERED if answer.kind == "offer" else self.values.lease * SECOND
                still = end if address == answer.address and end > answer.at else 0
                address, end = answer.address, max(still, answer.at + span)
        return address if end > now else None

    def free(self, now):
        clients = {answer.client for answer in self.answers}
        taken = {self.held(client, now) for client in clients}
        return next((address for address in self.range if address not in taken), None)

    def answer(self, now, request):
        """The kind of the answer to a message, and its address."""
        mine = self.held(request.client, now)
        kind, address = self.kind_of(now, request, mine)
        self.answers.append(Answer(request.client, now, kind, address))
        return kind, address

    def kind_of(self, now, request, mine):
        options = request.options
        if request.kind == DISCOVER:
            address = mine or self.free(now)
            return ("offer", address) if address else ("full", None)
        if request.kind == RELEASE:
            return ("released" if mine is not None and request.mine == mine else "stale"), None
        if request.kind != REQUEST:
            return "unwanted", None
        asked = options.get(50)
        if 54 in options:
            if options[54] != self.values.address:
                return "other", None
            return ("ack", asked) if asked is not None and asked == mine else ("nak", None)
        wanted = request.mine if request.mine != UNSPECIFIED else asked
        if wanted is not None and wanted == mine:
            return "ack", wanted
        return ("nak" if wanted in self.range else "foreign"), None

    def reply(self, request, kind, address):
        """The frame of an answer."""
        values = self.values
        options = [(53, bytes([{"offer": OFFER, "ack": ACK, "nak": NAK}[kind]])), (54, values.address)]
        if kind != "nak":
            options += [(1, (0xFFFFFFFF << 32 - values.prefix & 0xFFFFFFFF).to_bytes(4, "big")), (51, secs(values.lease))]
        body = dhcp_message(options[0][1][0], request.ident, options, yours=address or UNSPECIFIED, hardware=request.client)
        body = body[:10] + struct.pack(">H", request.flags & 0x8000) + body[12:]
        return udp_frame((values.hardware, BROADCAST), (values.address, EVERYBODY), (67, 68), body)

    def serve(self, now, frame):
        """What is said of a frame, and the frame that is sent for it, if one is."""
        hardware, address = self.values.hardware, self.values.address
        request = request_of(frame, hardware)
        if request is not None:
            kind, leased = self.answer(now, request)
            if kind in ("offer", "ack", "nak"):
                dotted = "" if leased is None else " " + ".".join(map(str, leased))
                return kind + dotted, self.reply(request, kind, leased)
            return "silent " + kind, None
        asked = arp_packet(frame) if frame[:6] == hardware or (frame[:1] and frame[0] & 1) else None
        if asked is not None and asked[0] == 1 and asked[3] == address:
            return "arp", arp_frame(2, address, asked[2], hardware=(hardware, asked[1]))
        return "none", None


def served(values, events):
    """The report's lines of a script, and the records of its capture: for each event, (time, frame)."""
    server, lines, records = Server(values), [], []
    for place, (at, frame) in enumerate(events):
        said, sent = ("none", None) if frame is None else server.serve(at, frame)
        lines.append(f"{place} {at // SECOND}.{at % SECOND:06} {said}")
        records += [(at, one) for one in (frame, sent) if one is not None]
    return lines, records


def crowd():
    """A range of 1,000 addresses that 1,000 clients fill with offers, which lapse; then others fill it with leases, and those lapse. The
    values, the events, and for each event what is said and the address: `Server` looks through all answers for each one, which is too slow
    for so many clients."""
    values = Values(bytes.fromhex("020000000001"), bytes([10, 0, 0, 1]), bytes([10, 0, 1, 0]), 1000, 16, 600)
    addresses, events, said = Server(values).range, [], []

    def send(at, client, kind, options, address, word):
        hardware = b"\2\7\0\0" + client.to_bytes(2, "big")
        message = dhcp_message(kind, client, [(53, bytes([kind])), *options], hardware=hardware)
        events.append((at, udp_frame((hardware, BROADCAST), (UNSPECIFIED, EVERYBODY), (68, 67), message)))
        said.append((word, address))

    def discover(at, client, address):
        send(at, client, DISCOVER, [], address, "offer" if address else "full")

    for place in range(1000):
        discover(place, place, addresses[place])
    discover(59_999_999, 1000, None)
    # an offer lasts 60 seconds, and ends at their end
    discover(60_000_000, 1000, addresses[0])
    discover(60_000_000, 1001, None)
    for place in range(1, 1000):
        discover(60_001_000, 1000 + place, addresses[place])
    for place in range(1000):
        send(61_000_000 + place, 1000 + place, REQUEST, [(54, values.address), (50, addresses[place])], addresses[place], "ack")
    discover(660_999_999, 0, None)
    for place in range(999, -1, -1):
        discover(661_001_000, place, addresses[999 - place])
    discover(661_001_000, 2000, None)
    return values, events, said


def served_crowd():
    """The same as of `served`."""
    values, events, said = crowd()
    server, lines, records = Server(values), [], []
    for place, ((at, frame), (kind, address)) in enumerate(zip(events, said)):
        word = "silent full" if kind == "full" else kind + " " + ".".join(map(str, address))
        lines.append(f"{place} {at // SECOND}.{at % SECOND:06} {word}")
        records.append((at, frame))
        if kind != "full":
            records.append((at, server.reply(request_of(frame, values.hardware), kind, address)))
    return values, events, lines, records
