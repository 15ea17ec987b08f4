"""Whether a capture has hand-outs (docs/formats.md, "Captures")."""
import struct

from spelling.histories import KINDS, MAGIC

HEAD = struct.Struct('<cII')
HAND_OUTS = {KINDS[kind].encode() for kind in ('Put', 'Send')}


def has_hand_outs(source):
    """Whether a hand-out is among the records of a file that can be sought."""
    source.seek(len(MAGIC))
    found = False
    while not found and len(head := source.read(HEAD.size)) == HEAD.size:
        letter, _, length = HEAD.unpack(head)
        found = letter in HAND_OUTS
        source.seek(length, 1)
    return found
