"""Networks that decode, filter, add and wait, as folders of files with an input: what `bench/decoders` and `bench/workers` run.

A workload is a folder, the words that run it for an amount of input, and how many firings there are for each unit of it."""

import os
import shutil
import sys

HERE = os.path.dirname(os.path.abspath(__file__))
sys.path.insert(0, os.path.join(HERE, 'network'))

from networks import FILES, instance, join, network, port, ring, row, tree  # noqa: E402

# A loop of 2,000 turns, of 6,000, and hardly any work, over bytes.
HEAVY = ('actor %s() uint(size=8) In ==> uint(size=8) Out : action In:[a] ==> Out:[sum] var int sum := 0, int i := 0 do'
         ' while i < %d do sum := sum + a; i := i + 1; end end end')
FILES = dict(FILES, **{'Heavy.cal': HEAVY % ('Heavy', 2000), 'Heavier.cal': HEAVY % ('Heavier', 6000)})


def write(folder, name, data):
    path = os.path.join(folder, name)
    os.makedirs(os.path.dirname(path), exist_ok=True)
    with open(path, 'wb') as file:
        file.write(data if isinstance(data, bytes) else data.encode())


def noise(count):
    """Bytes that repeat after a long while, the same on each machine."""
    state, out = 1, bytearray()
    for _ in range(min(count, 65536)):
        state = (state * 6364136223846793005 + 1442695040888963407) % 2**64
        out.append(state >> 56)
    return (bytes(out) * (count // len(out) + 1))[:count]


def side_by_side(classes):
    """A network of these actors, to each of which the input leads, and none of whose outputs is read."""
    parts = [port('Input', 'In')]
    parts += [instance('a%d' % k, name) for k, name in enumerate(classes)]
    parts += [join('', 'In', 'a%d' % k, 'In') for k in range(len(classes))]
    return network('Side', parts)


class Workload:
    """A folder with a network at the top, and the words that run it."""

    def __init__(self, name, folder, words, data=None):
        self.name, self.folder, self.words, self.data = name, folder, words, data

    def prepare(self, amount):
        """Writes so much input, in units of `data`, and gives the words of a run of it."""
        if self.data is not None:
            write(self.folder, 'in', self.data(amount))
        return [word % amount if '%' in word else word for word in self.words] + \
            ['Out=out', '--trace', 'trace', '--budget', '1000000000']


def made(room, name, top, files, data, words=None):
    folder = os.path.join(room, name.replace(' ', '_').replace(',', ''))
    os.makedirs(folder, exist_ok=True)
    for path, text in files.items():
        write(folder, path, text)
    return Workload(name, folder, words or ['run', top, 'In=in'], data)


def block(room):
    """The decoder of the example `block`, over its stream again and again."""
    folder = os.path.join(room, 'decoder')
    shutil.copytree(os.path.join(HERE, '..', 'examples', 'block'), os.path.join(folder, 'block'))
    with open(os.path.join(folder, 'block', 'in.bin'), 'rb') as file:
        stream = file.read()
    load = Workload('decoder of examples/block', folder, ['run', 'block/Decoder.xdf', 'Pairs=in'], lambda n: stream * n)
    load.prepare = lambda amount: [w.replace('Out=', 'Video=') for w in Workload.prepare(load, amount)]
    return load


def actor(room, name, file):
    with open(os.path.join(HERE, 'decoders', 'actors', file)) as source:
        text = source.read()
    return made(room, name, file, {file: text}, noise)


def adders(room, name, top, text, data=noise):
    return made(room, name, top, dict(FILES, **{top: text}), data)


def generated(room):
    """Rows that `gen` makes: their input is a thousand bytes, and the budget of firings cuts them off."""
    load = made(room, 'gen 1000', 'none', {}, None, ['gen', '1000'])
    load.prepare = lambda amount: ['gen', '1000', 'Out=out', '--trace', 'trace', '--budget', str(amount)]
    return load


def rows(room, counts):
    return {n: adders(room, 'row of %d' % n, 'Row.xdf', row(n)) for n in counts}


def rings(room, counts):
    return {n: adders(room, 'ring of %d' % n, 'Ring.xdf', ring(n)) for n in counts}


def whole_tree(room):
    return adders(room, 'tree of 511', 'Tree.xdf', tree(512))


def sides(room, name, classes):
    load = adders(room, name, 'Side.xdf', side_by_side(classes))
    load.prepare = lambda amount: [w for w in Workload.prepare(load, amount) if not w.startswith('Out=')]
    return load
