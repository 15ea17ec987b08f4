"""What is asked of a sync service, and what each answer comes to: their texts, and the files of crates/adb_worked."""

FOLDER = 'asks'


class Asks:
    def __init__(self):
        self.asked, self.told = '', ''

    def add(self, line):
        """A line that is asked, or behind a `>` what its answer comes to."""
        mark, rest = line[:4].strip(), line[4:]
        if mark == '':
            self.asked += rest + '\n'
        elif mark == '>':
            self.told += rest + '\n'
        else:
            raise ValueError(f'no mark: {mark}')


def begin(name):
    return Asks()


def files(name, all_asks):
    asks = all_asks[name]
    return {f'asks/{name}.asks': asks.asked.encode(), f'asks/{name}.told': asks.told.encode()}
