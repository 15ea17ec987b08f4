"""Packets of a stream of bytes, in pieces of any size (docs/formats.md, "Packets")."""
import struct
from typing import NamedTuple

HEADER = struct.Struct('<6I')
MAX_PAYLOAD = 1_048_576
# The least version whose packets carry no sums.
VERSION = 0x01000001
CREDIT_WORD = struct.Struct('<I')
COMMANDS = {int.from_bytes(name.encode(), 'little'): name
            for name in ('CNXN', 'OPEN', 'OKAY', 'WRTE', 'CLSE', 'AUTH', 'STLS')}


class Packet(NamedTuple):
    command: str
    first: int
    second: int
    payload: bytes

    def credit(self):
        """The credit that an OKAY gives, and none where it has no credit word."""
        is_word = self.command == 'OKAY' and len(self.payload) == CREDIT_WORD.size
        return CREDIT_WORD.unpack(self.payload)[0] if is_word else None


def head_fault(word, length, magic):
    """What is wrong with a header, and none where nothing is."""
    if magic != word ^ 0xffffffff:
        return 'BadMagic'
    if word not in COMMANDS:
        return 'UnknownCommand'
    return 'TooLong' if length > MAX_PAYLOAD else None


class Deframer:
    """Cuts the bytes of a link, one way. Check words are looked at in what a device says, not in what a server does.
    Behind a fault nothing is kept."""

    def __init__(self, looks_at_sums):
        self.held = b''
        self.looks_at_sums = looks_at_sums
        self.wants_sums = False
        self.fault = None

    def feed(self, piece):
        """The packets that a piece makes whole, and the bytes of the piece behind them."""
        held = self.held + piece
        packets, at = [], 0
        while self.fault is None and len(held) >= at + HEADER.size:
            word, first, second, length, check, magic = HEADER.unpack_from(held, at)
            end = at + HEADER.size + length
            self.fault = head_fault(word, length, magic)
            if self.fault or len(held) < end:
                break
            packet = Packet(COMMANDS[word], first, second, held[at + HEADER.size:end])
            if not self.may_carry(packet, check):
                self.fault = 'BadSum'
                break
            packets.append(packet)
            at = end
        left = len(held) - at
        self.held = b'' if self.fault else held[at:]
        return packets, piece[max(len(piece) - left, 0):]

    def may_carry(self, packet, check):
        """Whether a packet may have that check word; a CNXN says whether later packets must have theirs."""
        if packet.command == 'CNXN':
            self.wants_sums = packet.first < VERSION
            return not self.looks_at_sums or check in (0, sum(packet.payload) % (1 << 32))
        wanted = self.looks_at_sums and self.wants_sums
        return not wanted or check == sum(packet.payload) % (1 << 32)
