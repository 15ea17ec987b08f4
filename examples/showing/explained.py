"""What adbexplain says of a history, or of the replay of a capture that has no hand-outs."""
import io
import json
import os
import subprocess
import tempfile

TOP = os.path.dirname(os.path.dirname(os.path.dirname(os.path.abspath(__file__))))
NO_PROGRAM = 127
HAND_OUTS = (',"kind":"put"', ',"kind":"send"')
read_object = json.JSONDecoder().raw_decode


class Stopped(Exception):
    """A program ended with a status that is not 0, and this note."""

    def __init__(self, status, note):
        super().__init__(note)
        self.status, self.note = status, note


def program(name):
    """Where a program is: what the variable of its name says, or what `make build` or `rt run` made."""
    named = os.environ.get(name.upper())
    built = [os.path.join(TOP, 'bin', name), os.path.join(TOP, 'crates', name, 'out', name)]
    for path in [named] if named else built:
        if os.access(path, os.X_OK):
            return path
    raise Stopped(NO_PROGRAM, f'{name} is not built: make build')


def start(words, source):
    """Starts a program that reads a source, or from its start a file that can be sought."""
    if source.seekable():
        os.lseek(source.fileno(), 0, os.SEEK_SET)
    return subprocess.Popen(words, stdin=source, stdout=subprocess.PIPE, stderr=subprocess.PIPE)


def end(running):
    """Raises Stopped if a program ended with a status that is not 0."""
    note = running.stderr.read().decode(errors='replace').strip()
    running.stderr.close()
    if status := running.wait():
        raise Stopped(status, note.partition(': ')[2])


def rewound(source):
    """The bytes of a source as a file that can be sought."""
    if source.seekable():
        return source
    kept = tempfile.TemporaryFile()
    while piece := source.read(1 << 20):
        kept.write(piece)
    kept.seek(0)
    return kept


def entries(source, is_history, keeps_hand_outs=False):
    """What adbexplain writes for each entry of the file. Of a capture that has no hand-outs the history is that of
    `adbhub replay`, and its hand-outs are left out if they are not to be kept. Raises Stopped where a program stopped."""
    feeding = None if is_history else start([program('adbhub'), 'replay'], source)
    running = start([program('adbexplain')], feeding.stdout if feeding else source)
    if feeding:
        feeding.stdout.close()
    with io.TextIOWrapper(running.stdout, encoding='ascii') as lines:
        for line in lines:
            if is_history or keeps_hand_outs or not line.startswith(HAND_OUTS, line.index(',')):
                yield read_object(line)[0]
    for program_run in filter(None, (feeding, running)):
        end(program_run)
