"""Entries of a recorded history (docs/formats.md, "Captures")."""
import struct
from typing import NamedTuple

MAGIC = b"ADBHUB1\n"
HEAD = struct.Struct("<cII")


class Entry(NamedTuple):
    letter: bytes
    number: int
    data: bytes


def entries(history):
    """The whole entries of a history. Its last entry may be cut short, since a server may still write it."""
    at, found = len(MAGIC), []
    while at + HEAD.size <= len(history):
        letter, number, length = HEAD.unpack_from(history, at)
        at += HEAD.size + length
        if at <= len(history):
            found.append(Entry(letter, number, history[at - length : at]))
    return found


def without_torn(history):
    """A history up to the end of its last whole entry."""
    return history[: len(MAGIC) + sum(HEAD.size + len(entry.data) for entry in entries(history))]


def handed(history):
    """The bytes that each client was handed."""
    all_of = {}
    for entry in entries(history):
        if entry.letter == b"P":
            all_of[entry.number] = all_of.get(entry.number, b"") + entry.data
    return all_of
