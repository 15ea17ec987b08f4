"""Worked exchanges with a model device: their texts, and the files of crates/adb_worked."""
from spelling.packets import packet, piece, text, words_of

FOLDER = 'exchanges'
# What is written to each command: a packet of input, and the close of it.
INPUT = rb'"\0\x02\0\0\0in\x04\0\0\0\0"'.decode()


class Lines:
    """The lines of an exchange, as they stand."""

    def __init__(self):
        self.lines = []

    def add(self, line):
        self.lines.append(words_of(line))

    def all(self, exchanges):
        """Its lines, with those of an exchange that it begins as, but for the files at the end of that."""
        done = []
        for words in self.lines:
            if words[0] == 'As':
                done += [line for line in exchanges[words[1]].all(exchanges) if line[0] != 'File']
            else:
                done.append(words)
        return done


class Exchange:
    """What the host of an exchange sends, and all that goes over the link."""

    def __init__(self):
        self.host, self.told, self.drawn = b'', b'', 0

    def add(self, words):
        kind, words = words[0], words[1:]
        if kind == 'Drawn':
            self.drawn = int(words[0])
        elif kind == 'Host':
            self.host += packet(words)
            self.told += packet(words)
        elif kind == 'Device':
            self.told += piece(words)
        elif kind in ('Says', 'File'):
            self.told += text(words[0]) + b'\n'
        elif kind == 'Run':
            self.run(*words)
        elif kind == 'Ask':
            self.ask(*words)
        else:
            raise ValueError(f'no line: {kind}')

    def run(self, prefix, command, *answer):
        """A command is opened by the host's id 1, answers and is done; what is written to it then is ignored."""
        self.drawn += 1
        own = str(self.drawn)
        name = '"' + prefix[1:-1] + command[1:-1] + '"'
        self.add(['Host', 'OPEN', '1', '4096', name])
        self.add(['Device', 'OKAY', own, '1', 'credit', '262144'])
        if answer:
            self.add(['Device', 'WRTE', own, '1', *answer])
        self.add(['Device', 'CLSE', own, '1'])
        self.add(['Host', 'WRTE', '1', own, INPUT])

    def ask(self, requests, *answer):
        """A stream of sync requests, what is answered to them, and who closes it: the device where `ends` stands behind."""
        self.drawn += 1
        own = str(self.drawn)
        answer, ends = (answer[:-1], True) if answer[-1:] == ('ends',) else (answer, False)
        self.add(['Host', 'OPEN', '1', '4096', '"sync:"'])
        self.add(['Device', 'OKAY', own, '1', 'credit', '262144'])
        self.add(['Host', 'WRTE', '1', own, requests])
        self.add(['Device', 'OKAY', own, '1', 'credit', str(len(text(requests)))])
        if answer:
            self.add(['Device', 'WRTE', own, '1', *answer])
        self.add(['Device', 'CLSE', own, '1'] if ends else ['Host', 'CLSE', '1', own])


def begin(name):
    if not name.startswith(('plain_', 'credit_')):
        raise ValueError(f'neither plain nor with credit: {name}')
    return Lines()


def files(name, exchanges):
    exchange = Exchange()
    for words in exchanges[name].all(exchanges):
        exchange.add(words)
    return {f'exchanges/{name}.host': exchange.host, f'exchanges/{name}.told': exchange.told}
