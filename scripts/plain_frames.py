"""Frames of a DHCP server, of a client and of neighbours, written and read by RFC 894, 826, 791, 768, 2131 and 2132."""
import struct
from collections import namedtuple

HOST, SERVER = b"\2" * 6, bytes.fromhex("020000000001")
BROADCAST, NOBODY = b"\xff" * 6, bytes(6)
LEASED, ROUTER, NAMES, STATION = (bytes([192, 168, 1, last]) for last in (42, 1, 53, 9))
EVERYBODY, UNSPECIFIED = b"\xff" * 4, bytes(4)
MAGIC = bytes.fromhex("63825363")
DISCOVER, OFFER, REQUEST, ACK, NAK = 1, 2, 3, 5, 6


# Writing

def add_up(data):
    """The sum of the 16-bit words of some bytes in one's complement arithmetic (RFC 1071)."""
    data += b"\0" * (len(data) % 2)
    value = sum(struct.unpack(f">{len(data) // 2}H", data))
    while value >> 16:
        value = (value & 0xFFFF) + (value >> 16)
    return value


def ipv4_frame(hardware, addresses, payload, protocol=17, flags=0x4000, length=None):
    """An IPv4 packet in a frame: `hardware` and `addresses` are pairs of source and destination."""
    length = 20 + len(payload) if length is None else length
    head = struct.pack(">BBHHHBBH", 0x45, 0, length, 0, flags, 64, protocol, 0) + addresses[0] + addresses[1]
    head = head[:10] + struct.pack(">H", 0xFFFF - add_up(head)) + head[12:]
    return hardware[1] + hardware[0] + b"\x08\x00" + head + payload


def udp_datagram(addresses, ports, data, has_sum=True):
    head = struct.pack(">HHHH", *ports, 8 + len(data), 0)
    pseudo = addresses[0] + addresses[1] + struct.pack(">HH", 17, 8 + len(data))
    value = 0xFFFF - add_up(pseudo + head + data) or 0xFFFF
    return head[:6] + struct.pack(">H", value if has_sum else 0) + data


def udp_frame(hardware, addresses, ports, data, **changes):
    return ipv4_frame(hardware, addresses, udp_datagram(addresses, ports, data), **changes)


def dhcp_message(kind, ident, options, client=UNSPECIFIED, yours=UNSPECIFIED, hardware=HOST):
    head = struct.pack(">BBBBIHH", 2 if kind in (OFFER, ACK, NAK) else 1, 1, 6, 0, ident, 0, 0)
    body = head + client + yours + bytes(8) + hardware + bytes(202) + MAGIC
    return body + b"".join(bytes([key, len(value)]) + value for key, value in options) + b"\xff"


def secs(number):
    return struct.pack(">I", number)


def reply_of(kind, ident, lease=1000, more=(), names=NAMES):
    """The message of the server: its lease is in seconds."""
    options = [(53, bytes([kind])), (54, ROUTER)]
    if kind != NAK:
        options += [(3, ROUTER), (1, bytes([255, 255, 255, 0])), (51, secs(lease)), *more, (6, names)]
    return dhcp_message(kind, ident, options, yours=UNSPECIFIED if kind == NAK else LEASED)


FROM_SERVER = (SERVER, HOST), (ROUTER, EVERYBODY), (67, 68)


def reply(kind, ident, lease=1000, more=(), names=NAMES, **changes):
    return udp_frame(*FROM_SERVER, reply_of(kind, ident, lease, more, names), **changes)


def unsummed(kind, ident):
    return ipv4_frame(*FROM_SERVER[:2], udp_datagram(*FROM_SERVER[1:], reply_of(kind, ident), has_sum=False))


def flipped(frame, place, bit=1):
    return frame[:place] + bytes([frame[place] ^ bit]) + frame[place + 1:]


def tagged(frame, tag=5):
    return frame[:12] + struct.pack(">HH", 0x8100, tag) + frame[12:]


def arp_frame(operation, sender, target, hardware=(SERVER, HOST), about=None):
    """An ARP packet: `sender` and `target` are addresses, `about` the target's hardware address."""
    about = hardware[1] if about is None else about
    packet = struct.pack(">HHBBH", 1, 0x0800, 6, 4, operation) + hardware[0] + sender + about + target
    return hardware[1] + hardware[0] + b"\x08\x06" + packet


# Reading

def is_unicast(address):
    return address not in (UNSPECIFIED, EVERYBODY) and not 224 <= address[0] <= 239


def arp_packet(frame):
    """Operation, sender's hardware address, sender, and target of a frame with a packet that counts."""
    packet = frame[14:42]
    if len(packet) < 28 or frame[12:14] != b"\x08\x06" or packet[:6] != bytes.fromhex("000108000604"):
        return None
    operation, hardware, sender = struct.unpack(">H", packet[6:8])[0], packet[8:14], packet[14:18]
    if operation not in (1, 2) or hardware[0] & 1 or not is_unicast(sender):
        return None
    return operation, hardware, sender, packet[24:28]


def datagram(frame, counts=is_unicast):
    """Source address, ports and data of a frame with a whole UDP datagram from a source that counts, whose checksums are right."""
    packet = frame[14:]
    if frame[12:14] != b"\x08\x00" or len(packet) < 20 or packet[0] >> 4 != 4:
        return None
    head, total = (packet[0] & 15) * 4, struct.unpack(">H", packet[2:4])[0]
    if not 20 <= head <= total <= len(packet) or struct.unpack(">H", packet[6:8])[0] & 0x3FFF or packet[9] != 17:
        return None
    source, payload = packet[12:16], packet[head:total]
    if add_up(packet[:head]) % 0xFFFF or not counts(source) or len(payload) < 8:
        return None
    ports, (size, check) = struct.unpack(">HH", payload[:4]), struct.unpack(">HH", payload[4:8])
    if not 8 <= size <= len(payload):
        return None
    pseudo = packet[12:20] + struct.pack(">HH", 17, size)
    if check and add_up(pseudo + payload[:size]) % 0xFFFF:
        return None
    return source, ports, payload[8:size]


LENGTHS = {53: 1, 1: 4, 50: 4, 51: 4, 54: 4, 58: 4, 59: 4, 57: 2, 61: 7}


def is_option(kind, value):
    if kind in (3, 6):
        return len(value) > 0 and len(value) % 4 == 0
    return LENGTHS.get(kind) == len(value)


def options_of(data):
    """The last option of each kind that has a right length."""
    options, at = {}, 0
    while at + 1 < len(data) and data[at] != 255:
        if data[at] == 0:
            at += 1
            continue
        end = at + 2 + data[at + 1]
        if end <= len(data) and is_option(data[at], data[at + 2:end]):
            options[data[at]] = data[at + 2:end]
        at = end
    return options


Heard = namedtuple("Heard", "kind source yours options")


def heard_of(frame, hardware, ident):
    """What a DHCP server says to this client in answer to the message with this id."""
    parts = datagram(frame)
    if parts is None or parts[1] != (67, 68):
        return None
    source, _, data = parts
    if len(data) < 240 or data[1:3] != b"\1\6" or data[236:240] != MAGIC:
        return None
    options = options_of(data[240:])
    if 53 not in options or 54 not in options:
        return None
    kind = options[53][0]
    if data[0] != (2 if kind in (OFFER, ACK, NAK) else 1):
        return None
    if data[28:34] != hardware or struct.unpack(">I", data[4:8])[0] != ident:
        return None
    return Heard(kind, source, data[16:20], options)


def number(value):
    return int.from_bytes(value, "big")


def prefix_of(mask):
    """How many ones a mask has in front, where nothing but zeros is behind them."""
    ones = 32 - (number(mask) ^ 0xFFFFFFFF).bit_length()
    return ones if number(mask) == (0xFFFFFFFF << (32 - ones)) & 0xFFFFFFFF else None
