"""Texts that have a name each, and stand in files side by side."""
import re

WRONG = (ValueError, KeyError, TypeError, AttributeError, OverflowError, IndexError)


class BadText(Exception):
    """A text is not as texts are, and where."""


def read(path, begin, texts):
    """The texts of a file: each begins with its name, and has the lines behind it that do not begin at the margin."""
    one = None
    for number, line in enumerate(open(path, encoding='utf-8').read().splitlines(), 1):
        try:
            if not line or line.startswith('#'):
                continue
            if line.startswith(' '):
                one.add(line)
                continue
            name = re.fullmatch(r'([a-z0-9_]+):.*', line)[1]
            if name in texts:
                raise ValueError(f'{name} stands twice')
            one = texts[name] = begin(name)
        except WRONG as wrong:
            raise BadText(f'{path}:{number}: {wrong}') from wrong
