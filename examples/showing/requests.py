"""What clients ask: where requests end, and after which the next one is read (docs/formats.md, "Requests of
clients")."""
import re

LENGTH_DIGITS = 4
MAX_ID = 4_294_967_295
MALFORMED = object()
SELECTIONS = {b'host:' + form + kind for form in (b'transport-', b'tport:') for kind in (b'usb', b'local', b'any')}
BY_SERIAL = (b'host:transport:', b'host:tport:serial:')
BY_ID = re.compile(rb'host:transport-id:([0-9]{1,10})')


def cut(unread):
    """The text of the request that some bytes begin with: none where more is wanted, MALFORMED where it is none."""
    if len(unread) < LENGTH_DIGITS:
        return None
    digits = bytes(unread[:LENGTH_DIGITS])
    if not re.fullmatch(rb'[0-9a-fA-F]{4}', digits) or int(digits, 16) == 0:
        return MALFORMED
    end = LENGTH_DIGITS + int(digits, 16)
    return bytes(unread[LENGTH_DIGITS:end]) if len(unread) >= end else None


def is_selection(text):
    """Whether a request selects a device: only after such a one the next request is read."""
    if text in SELECTIONS or text.startswith(BY_SERIAL):
        return True
    found = BY_ID.fullmatch(text)
    return found is not None and int(found[1]) <= MAX_ID


class Asking:
    """A client that asks: its bytes that are no whole request yet."""

    def __init__(self):
        self.unread = bytearray()
        self.is_over = False

    def hear(self, data):
        """The requests that a piece makes whole, and the bytes of the piece after them."""
        self.unread += data
        whole = []
        while not self.is_over and (text := cut(self.unread)) is not None:
            if text is MALFORMED:
                self.is_over = True
                break
            del self.unread[:LENGTH_DIGITS + len(text)]
            whole.append(text)
            self.is_over = not is_selection(text)
        return whole, data[max(len(data) - len(self.unread), 0):]
