"""The lines of a capture or a history."""
from showing.explained import entries
from showing.lines import line
from showing.packets import Deframer
from showing.records import has_hand_outs
from showing.requests import Asking


class View:
    """Cuts what clients asked into requests, and what went through links into packets."""

    def __init__(self):
        self.asking, self.links, self.count = {}, {}, 0
        self.of_kind = {'join': self.join, 'end': self.end, 'read': self.read, 'attach': self.attach,
                        'recv': self.recv, 'send': self.send, 'detach': self.detach}

    def take(self, entry):
        """The requests or packets that an entry makes whole, the bytes after them, and the fault of these."""
        data = entry['text'].encode('latin-1') if 'text' in entry else b''
        take = self.of_kind.get(entry['kind'])
        parts = take and take(entry, data) or ([], data, None)
        count = entry.get('links', self.count)
        if count < self.count:
            # a link broke, or all are gone
            self.links.pop(entry.get('link'), None)
        self.count = count
        return parts

    def join(self, entry, _):
        self.asking[entry['client']] = Asking()

    def end(self, entry, _):
        self.asking.pop(entry['client'], None)

    def read(self, entry, data):
        client = self.asking.get(entry['client'])
        if client is None:
            return None
        whole, rest = client.hear(data)
        if client.is_over:
            del self.asking[entry['client']]
        return whole, rest, None

    def attach(self, entry, _):
        self.links[entry['link']] = Deframer(looks_at_sums=True), Deframer(looks_at_sums=False)

    def detach(self, entry, _):
        self.links.pop(entry['link'], None)

    def recv(self, entry, data):
        return self.cut(entry, data, 0)

    def send(self, entry, data):
        return self.cut(entry, data, 1)

    def cut(self, entry, data, way):
        link = self.links.get(entry['link'])
        if link is None:
            return None
        whole, rest = link[way].feed(data)
        return whole, rest, link[way].fault


def lines(source):
    """A line for each entry of the file. Raises Stopped where its capture is refused, or an entry may not come."""
    view = View()
    for place, entry in enumerate(entries(source, has_hand_outs(source)), 1):
        yield line(place, entry, view.take(entry))
