"""Worked histories, and the runs of other commands: their texts, and the files of crates/adb_worked."""
import itertools
import re

from spelling.packets import piece, text, words_of

FOLDER = 'histories'
MAGIC = b'ADBHUB1\n'
KINDS = {'Join': 'J', 'Enter': 'N', 'Read': 'R', 'End': 'E', 'Bound': 'B',
         'Attach': 'A', 'Recv': 'V', 'Detach': 'D', 'Put': 'P', 'Send': 'S'}
CAUSES = {'Eof': 0, 'Fault': 1, 'Starved': 2, 'NoThread': 3}
PLUGS = {'usb': b'u', 'local': b'l'}


def record(kind, number, data):
    return kind.encode() + number.to_bytes(4, 'little') + len(data).to_bytes(4, 'little') + data


def data_of(kind, words):
    """The data of an entry's record, from the words behind its number."""
    if kind == 'Join' and not words:
        return b''
    if kind in ('Enter', 'Bound') and len(words) == 1:
        return int(words[0]).to_bytes(2, 'little')
    if kind in ('End', 'Detach') and len(words) == 1:
        return bytes([CAUSES[words[0]]])
    if kind == 'Attach' and len(words) == 2:
        return PLUGS[words[0]] + text(words[1])
    if kind in ('Read', 'Recv', 'Put', 'Send') and words:
        return piece(words)
    raise ValueError(f'no {kind}: {words}')


def spelled(words):
    """The bytes of a line: the magic, bytes in quotes, a record of any form, or an entry."""
    if words == ['Magic']:
        return MAGIC
    if words[0] == 'Lines' and len(words) == 3:
        return text(words[2]) * int(words[1])
    if words[0] == 'Line' and len(words) > 2:
        return piece(words[2:])
    if len(words) == 1:
        return text(words[0])
    if words[0] == 'Record' and len(words) == 4:
        return record(text(words[1]).decode(), int(words[2]), text(words[3]))
    return record(KINDS[words[0]], int(words[1]), data_of(words[0], words[2:]))


class History:
    def __init__(self):
        self.lines, self.command, self.status, self.note = [], None, 0, b''

    def add(self, line):
        """A line: its first three columns say where it stands, in the capture, the history or both, how the run ends,
        or the words of a command."""
        mark, rest = line[:4].strip(), line[4:]
        if mark == '!':
            status, _, note = rest.partition(' ')
            self.status, self.note = int(status), note.encode() + b'\n'
        elif mark == '$':
            self.command = rest.split()
        elif mark in ('', '<', '>'):
            words = words_of(rest)
            if words[0] == '+':
                self.lines[-1][1].extend(words)
            else:
                self.lines.append((mark, words))
        else:
            raise ValueError(f'no mark: {mark}')

    def ranges(self):
        """The numbers of each line: those of its own range, or those of the line before if it has a `#` and no range."""
        each = None
        for _, words in self.lines:
            goes_on = 'each' not in words and any('#' in word for word in words)
            each = range_of(words) or (each if goes_on else None)
            yield each

    def entries(self, histories):
        """Its lines, with those of a history that it begins as, or that it reads as its capture, and lines of a range once for each of its numbers."""
        done = []
        for each, ranged in itertools.groupby(zip(self.ranges(), self.lines), lambda it: it[0]):
            lines = [line for _, line in ranged]
            if lines[0][1][0] == 'As':
                done += histories[lines[0][1][1]].entries(histories)
                lines = lines[1:]
            elif lines[0][1][0] == 'HistoryOf':
                other = histories[lines[0][1][1]].entries(histories)
                done += [('<', words) for mark, words in other if mark != '<']
                lines = lines[1:]
            for number in each or [0]:
                done += [(mark, numbered(words, number) if each else words) for mark, words in lines]
        return done

    def files(self, name, histories):
        """The files of its capture, or of a command's words and its capture, and of how the run ends."""
        entries = [(mark, spelled(words)) for mark, words in self.entries(histories)]
        capture = b''.join(entry for mark, entry in entries if mark != '>')
        history = b''.join(entry for mark, entry in entries if mark != '<')
        told = f'status {self.status}\n'.encode() + self.note + b'\n' + history
        if self.command is None:
            return {f'histories/{name}.capture': capture, f'histories/{name}.told': told}
        words = ''.join(f'{word}\n' for word in self.command).encode()
        return {f'commands/{name}.words': words + b'\n' + capture, f'commands/{name}.told': told}


def range_of(words):
    """The numbers for each of which a line stands, as `Attach 1..128`."""
    if len(words) > 1 and re.fullmatch(r'[0-9]+\.\.[0-9]+', words[1]):
        first, last = words[1].split('..')
        return range(int(first), int(last) + 1)
    return None


def numbered(words, number):
    first = str(number) if range_of(words) else words[1]
    return [words[0], first] + [word.replace('#', str(number)) for word in words[2:]]


def begin(name):
    return History()


def files(name, histories):
    return histories[name].files(name, histories)
