"""How texts, packets and pieces of bytes are spelled: crates/adb_worked/README.md has their form."""
import re

ESCAPES = {'n': b'\n', 't': b'\t', '0': b'\0', '"': b'"', '\\': b'\\'}
# What may stand behind a packet's payload.
PARTS = {'credit', 'sum', 'length', 'magic', 'cut'}
# Bytes that count begin again here.
COUNTED = 251


def words_of(line):
    return re.findall(r'"(?:[^"\\]|\\.)*"(?:\*[0-9]+)?|\S+', line)


def text(word):
    """The bytes of a word in quotes."""
    if not re.fullmatch(r'"(?:[^"\\]|\\x[0-9a-f]{2}|\\[nt0"\\])*"', word):
        raise ValueError(f'no text in quotes: {word}')
    parts = re.findall(r'\\x[0-9a-f]{2}|\\.|.', word[1:-1])
    return b''.join(bytes([int(part[2:], 16)]) if part.startswith('\\x') else
                    ESCAPES[part[1]] if part.startswith('\\') else part.encode() for part in parts)


def part_of(word):
    """The bytes of a text, of one so many times (`"a"*3`), or that count modulo 251 from one number up to another."""
    if '..' in word and not word.startswith('"'):
        start, end = (int(number) for number in word.split('..'))
        return bytes(number % COUNTED for number in range(start, end))
    quoted, times = re.fullmatch(r'(".*")(?:\*([0-9]+))?', word).groups()
    return text(quoted) * int(times or 1)


def packet(words):
    """A packet: its command, its two arguments, its payload, and then what is not as usual in it."""
    command, first, second = words[0].encode(), int(words[1], 0), int(words[2], 0)
    count = next((at for at, word in enumerate(words) if word in PARTS), len(words))
    payload = b''.join(part_of(word) for word in words[3:count])
    odd = dict(zip(words[count::2], words[count + 1::2]))
    if (len(words) - count) % 2 or odd.keys() - PARTS:
        raise ValueError(f'no packet: {words}')
    if 'credit' in odd:
        payload += int(odd['credit']).to_bytes(4, 'little')
    total = sum(payload) if odd.get('sum') == 'right' else int(odd.get('sum', '0'))
    length = int(odd.get('length', len(payload)))
    magic = int(odd.get('magic', str(int.from_bytes(command, 'little') ^ 0xffffffff)), 0)
    numbers = (first, second, length, total, magic)
    spelled_out = command + b''.join(number.to_bytes(4, 'little') for number in numbers) + payload
    return spelled_out[:int(odd.get('cut', len(spelled_out)))]


def piece(words):
    """The bytes of a piece: texts, and packets separated by `+`. `9 times` before them repeats them all, and `1..9 each`
    repeats them for each number, which takes the place of `#`."""
    if len(words) > 2 and words[1] == 'times':
        return piece(words[2:]) * int(words[0])
    if len(words) > 2 and words[1] == 'each':
        first, last = words[0].split('..')
        return b''.join(piece([word.replace('#', str(number)) for word in words[2:]])
                        for number in range(int(first), int(last) + 1))
    bytes_of = b''
    while words:
        count = words.index('+') if '+' in words else len(words)
        one, words = words[:count], words[count + 1:]
        bytes_of += spelled_piece(one)
    return bytes_of


def spelled_piece(words):
    """The bytes of a request with its length before it, of a packet, or of texts."""
    if words[0] == 'request':
        request = text(words[1])
        return b'%04x' % len(request) + request
    return packet(words) if words[0].isalpha() else b''.join(part_of(word) for word in words)
