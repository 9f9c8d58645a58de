"""A host as the list of its events tells: what it is due to say, and what it knows, is found by the places and the times of what it
sent and heard before."""
import struct
from collections import namedtuple
from plain_frames import (ACK, BROADCAST, DISCOVER, EVERYBODY, HOST, NAK, NOBODY, OFFER, REQUEST, UNSPECIFIED, arp_frame, arp_packet,
                          datagram, dhcp_message, heard_of, is_unicast, number, prefix_of, udp_frame)
from plain_names import A, Queries

SECOND = 1000000
FRAME, TICK, QUERY, RESET, TYPED_QUERY = 1, 2, 3, 4, 5


# The host

Settings = namedtuple("Settings", "hardware seed mtu longest ignores", defaults=[HOST, 1, 1500, None, False])
Event = namedtuple("Event", "kind at frame name asks", defaults=[b"", "", A])
Anchor = namedtuple("Anchor", "kind row offer lease", defaults=[None, None])
Lease = namedtuple("Lease", "address prefix router names renew rebind end")
Message = namedtuple("Message", "row at ident")


def settings_of(words):
    values = dict(word.split("=") for word in words)
    longest = int(values["lease"]) * SECOND if "lease" in values else None
    return Settings(mtu=int(values.get("mtu", 1500)), longest=longest, ignores=values.get("naks") == "ignore")


def words_of(seed, count):
    words = []
    for _ in range(count):
        seed ^= seed << 13 & 0xFFFFFFFF
        seed ^= seed >> 17
        seed ^= seed << 5 & 0xFFFFFFFF
        words.append(seed)
    return words


def word(place):
    """The id of a message that the event at this place sends, where the event chooses it."""
    return words_of(1, 3 * place + 1)[-1]


def lease_of(heard, now, longest):
    """The lease that an acknowledgement gives at a time."""
    options = heard.options
    prefix = prefix_of(options[1]) if 1 in options else None
    if heard.kind != ACK or prefix is None or not is_unicast(heard.yours):
        return None
    span = number(options[51]) * SECOND if 51 in options else 120 * SECOND
    span = span if longest is None else min(span, longest)
    first, second = (number(options[key]) * SECOND if key in options else None for key in (58, 59))
    if first is not None and second is not None and first < second < span:
        pass
    elif second is None and first is not None and first < span:
        second = first + (span - first) * 3 // 4
    elif first is None and second is not None and second < span:
        first = min(span // 2, second)
    else:
        first, second = span // 2, span * 7 // 8
    router = options[3][:4] if 3 in options else None
    names = [options[6][at:at + 4] for at in range(0, len(options[6]), 4)] if 6 in options else []
    names = [address for address in names if is_unicast(address)][:3]
    return Lease(heard.yours, prefix, router, names, now + first, now + second, now + span)


class Host:
    """What a host heard and sent so far."""

    def __init__(self, settings):
        self.settings = settings
        self.row = 0
        self.words = [settings.seed]
        self.messages = []
        self.anchor = Anchor("loss", 0)
        self.held = None
        self.stations = {}
        self.queries = Queries()

    def handle(self, event):
        """The frames that are sent in an event, each with its mark, and what is said of queries."""
        sent, lines = [], []
        self.words = words_of(self.words[-1], 3)
        if event.kind == RESET:
            self.anchor = Anchor("loss", self.row)
        elif event.kind in (QUERY, TYPED_QUERY):
            lines += self.queries.start(event.name, event.asks, self.words)
        elif event.kind == FRAME and (event.frame[:6] == self.settings.hardware or event.frame[:1] and event.frame[0] & 1):
            sent += self.hear_arp(event)
            self.hear_dhcp(event)
            self.hear_names(event)
        sent += self.speak(event.at)
        asked = [frame for mark, frame in sent if mark == "arp-request"]
        sent += [question for question in self.ask_names(event.at) if question[1] not in asked]
        lines += self.queries.ended()
        self.held = self.anchor.lease
        self.row += 1
        return sent, lines

    def hear_arp(self, event):
        packet = arp_packet(event.frame)
        if packet is None:
            return []
        operation, hardware, sender, target = packet
        self.stations[sender] = (event.at, hardware)
        if operation == 1 and self.held is not None and target == self.held.address:
            return [("arp-reply", arp_frame(2, target, sender, (self.settings.hardware, hardware)))]
        return []

    def hear_dhcp(self, event):
        ident = self.messages[-1].ident if self.messages else 1
        heard = heard_of(event.frame, self.settings.hardware, ident)
        if heard is None:
            return
        lease = lease_of(heard, event.at, self.settings.longest)
        if self.anchor.kind == "loss":
            if heard.kind == OFFER and is_unicast(heard.yours):
                self.anchor = Anchor("offer", self.row, heard)
        elif lease is not None:
            self.anchor = Anchor("lease", self.row, self.anchor.offer, lease)
        elif heard.kind == NAK and not self.settings.ignores:
            self.anchor = Anchor("loss", self.row)

    def hear_names(self, event):
        parts = datagram(event.frame)
        if parts is None or parts[1] == (67, 68):
            return
        source, ports, data = parts
        if ports[0] == 5353 or ports[0] == 53 and self.held is not None and source in self.held.names:
            self.queries.hear(source, ports, data)

    def ask_names(self, now):
        """The messages of queries that are due, up to the first one whose next hop is not known, and the question for that."""
        mine, held = self.settings.hardware, self.held
        servers, source = ([], None) if held is None else (held.names, held.address)
        asks, unknown = self.queries.look(now, servers, source, lambda to: self.hop(self.hop_address(to), now))
        sent = [(f"dns {query.number} {place}", udp_frame((mine, hop), (source, to), (query.port, 53), query.message()))
                for query, place, to, hop in asks]
        address = None if unknown is None else self.hop_address(unknown)
        return sent + ([] if address is None else [("arp-request", arp_frame(1, source, address, (mine, BROADCAST), NOBODY))])

    def speak(self, now):
        """The DHCP message that is due, or the question for its next hop."""
        since = [message for message in self.messages if message.row >= self.anchor.row]
        lease, last = self.anchor.lease, since[-1].at if since else None
        if self.anchor.kind == "loss":
            due = 0 if last is None else last + 10 * SECOND
        elif self.anchor.kind == "offer":
            due = 0 if last is None else last + 5 * SECOND * 2 ** ((len(since) - 1) // 2)
            if len(since) >= 5 and due <= now:
                return self.start_anew(now)
        elif lease.end <= now:
            return self.start_anew(now)
        elif last is None:
            due = lease.renew
        elif last < lease.rebind:
            due = last + min(max(60 * SECOND, (lease.rebind - last) // 2), lease.rebind - last)
        else:
            due = last + max(60 * SECOND, (lease.end - last) // 2)
        return self.send(now) if due <= now else []

    def start_anew(self, now):
        self.anchor = Anchor("loss", self.row)
        return self.speak(now)

    def send(self, now):
        anchor, mine = self.anchor, self.settings.hardware
        source, target, hop = UNSPECIFIED, EVERYBODY, BROADCAST
        if anchor.kind == "lease":
            source = anchor.lease.address
            if now < anchor.lease.rebind:
                target = anchor.offer.source
                address = self.hop_address(target)
                hop = self.hop(address, now)
                if address is not None and hop is None:
                    return [("arp-request", arp_frame(1, self.held.address, address, (mine, BROADCAST), NOBODY))]
        if hop is None:
            return []
        ident = self.words[0]
        options = [(53, bytes([DISCOVER])), (61, b"\1" + mine)]
        if anchor.kind != "loss":
            options[0] = (53, bytes([REQUEST]))
        if anchor.kind == "offer":
            ident = self.messages[-1].ident if self.messages else 1
            options += [(54, anchor.offer.options[54]), (50, anchor.offer.yours)]
        options += [(57, struct.pack(">H", self.settings.mtu - 68)), (55, bytes([1, 3, 6]))]
        message = dhcp_message(options[0][1][0], ident, options, client=source, hardware=mine)
        self.messages.append(Message(self.row, now, ident))
        return [("dhcp", udp_frame((mine, hop), (source, target), (68, 67), message))]

    def hop_address(self, target):
        if self.held is None:
            return None
        rest = 32 - self.held.prefix
        is_here = number(target) >> rest == number(self.held.address) >> rest
        return target if is_here else self.held.router

    def hop(self, address, now):
        at, hardware = self.stations.get(address, (None, None))
        return hardware if at is not None and now - at < 60 * SECOND else None


# What a run leaves

def note_of(frame):
    """What the dissector says of a frame of VLAN tags, ARP, or IPv4 with UDP or with ICMP but for timestamps."""
    note = dict(exts=0, net="none", transport="none", window=(0, len(frame)), incomplete=0, fragmented=0, stop="none")
    if len(frame) < 14:
        return dict(note, stop="ethernet")
    at, kind = 14, frame[12:14]
    note["window"] = (14, len(frame))
    while kind in (b"\x81\x00", b"\x88\xa8", b"\x91\x00") and note["exts"] < 3:
        if len(frame) < at + 4:
            return dict(note, stop="vlan")
        at, kind = at + 4, frame[at + 2:at + 4]
        note.update(exts=note["exts"] + 1, window=(at, len(frame)))
    rest = frame[at:]
    if kind == b"\x08\x06":
        size = 8 + 2 * (rest[4] + rest[5]) if len(rest) >= 8 else 8
        return dict(note, stop="arp") if len(rest) < size else dict(note, net="arp", window=(at, at + size))
    if kind != b"\x08\x00":
        return note
    head = (rest[0] & 15) * 4 if rest else 0
    if not rest or rest[0] >> 4 != 4 or head < 20 or len(rest) < head:
        return dict(note, stop="ip")
    total = struct.unpack(">H", rest[2:4])[0]
    end = total if head <= total <= len(rest) else len(rest)
    fragmented = struct.unpack(">H", rest[6:8])[0] & 0x3FFF != 0
    note.update(net="ipv4", window=(at + head, at + end), incomplete=int(total > len(rest)), fragmented=int(fragmented))
    if fragmented or rest[9] not in (1, 17):
        return note
    kind = "udp" if rest[9] == 17 else "icmpv4"
    if end - head < 8:
        return dict(note, stop=kind)
    if kind == "icmpv4":
        return dict(note, transport=kind, window=(at + head + 8, at + end))
    size = struct.unpack(">H", rest[head + 4:head + 6])[0]
    end = head + size if 8 <= size <= end - head else end
    return dict(note, transport="udp", window=(at + head + 8, at + end))


def event_text(event):
    if event.kind != FRAME:
        return {TICK: "tick", RESET: "reset"}.get(event.kind, "query")
    note = note_of(event.frame)
    note["window"] = "{}-{}".format(*note["window"])
    return " ".join(["frame", str(len(event.frame))] + [f"{key}={value}" for key, value in note.items()])


def record(at, frame):
    return struct.pack("<IIII", at // SECOND, at % SECOND, len(frame), len(frame)) + frame


def run(settings, events):
    """The report and the capture of a run that reads all its events."""
    host, text = Host(settings), ""
    capture = struct.pack("<IHHIIII", 0xA1B2C3D4, 2, 4, 0, 0, 262144, 1)    # microseconds, version 2.4, Ethernet
    for row, event in enumerate(events):
        if event.kind == FRAME:
            capture += record(event.at, event.frame)
        sent, lines = host.handle(event)
        held = "none" if host.held is None else "{}.{}.{}.{}/{}".format(*host.held.address, host.held.prefix)
        text += f"{row} {event.at // SECOND}.{event.at % SECOND:06} {event_text(event)} lease {held}\n"
        for mark, frame in sent:
            text += f"  sent {mark} {len(frame)}\n"
            capture += record(event.at, frame)
        text += "".join(f"  {line}\n" for line in lines)
    return text + "done\n", capture


def script_of(events):
    script = b""
    for event in events:
        script += struct.pack(">BQ", event.kind, event.at)
        if event.kind == FRAME:
            script += struct.pack(">H", len(event.frame)) + event.frame
        if event.kind == TYPED_QUERY:
            script += struct.pack(">H", event.asks)
        if event.kind in (QUERY, TYPED_QUERY):
            name = event.name.encode()
            script += struct.pack(">B", len(name)) + name
    return script
