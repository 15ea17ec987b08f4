"""Sessions of a script's line, and what each was handed: their texts, and the files of crates/adb_worked_device."""
from spelling.packets import piece, words_of

FOLDER = 'sessions'


class Session:
    def __init__(self):
        self.lines = []

    def add(self, line):
        self.lines.append(words_of(line))

    def parts(self, sessions):
        """The words of each of its lines by what the line begins with, and those of a session that it begins as."""
        parts = {}
        for kind, *words in self.lines:
            if kind == 'As':
                parts.update(sessions[words[0]].parts(sessions))
            elif kind in ('Line', 'Asks', 'Writes', 'Handed', 'Means', 'Prints'):
                parts[kind] = words
            else:
                raise ValueError(f'no line: {kind}')
        return parts


def begin(name):
    return Session()


def meaning(words):
    """A line of words, behind which a text may stand."""
    texts = [piece([word]) if word.startswith('"') else word.encode() for word in words]
    return b' '.join(texts) + b'\n'


def counted(content):
    return b'%d\n' % len(content) + content


def files(name, sessions):
    """A session: its name, the number and the words of its line, what it was handed, and how it goes."""
    parts = sessions[name].parts(sessions)
    number, *line = parts['Line']
    told = b''.join(piece(parts[kind]) + b'\n' for kind in ('Asks', 'Writes') if kind in parts)
    told += meaning(parts['Means']) if 'Means' in parts else b''
    told += piece(parts['Prints'])
    spelled = f'{name}\n{number}\n'.encode() + piece(line) + b'\n' + counted(piece(parts['Handed'])) + counted(told)
    return {f'sessions/{name}.told': spelled}


def joined(spelled):
    """The one file of all sessions, in the order of their names."""
    return {'sessions': b''.join(spelled[name] for name in sorted(spelled))}
