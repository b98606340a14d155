"""Networks of actors that add, as files of FNL."""

BYTE = "<Type name='uint'><Entry kind='Expr' name='size'><Expr kind='Literal' literal-kind='Integer' value='8'/></Entry></Type>"

FILES = {
    'Inc.cal': 'actor Inc() uint(size=8) In ==> uint(size=8) Out : action In:[a] ==> Out:[a + 1] end end',
    'Sum.cal': 'actor Sum() uint(size=8) A, uint(size=8) B ==> uint(size=8) Out :'
               ' action A:[a], B:[b] ==> Out:[a + b] end end',
    'Many.cal': 'actor Many() uint(size=8) A, uint(size=8) B, uint(size=8) C, uint(size=8) D ==>'
                ' uint(size=8) W, uint(size=8) X, uint(size=8) Y, uint(size=8) Z :'
                ' action A:[a], B:[b], C:[c], D:[d] ==> W:[a], X:[b], Y:[c], Z:[d] end end',
    # Sends a token first, and passes on what comes: it starts a ring that has a token for each of its actors.
    'Start.cal': 'actor Start() uint(size=8) In, uint(size=8) Back ==> uint(size=8) Round, uint(size=8) Out :'
                 ' action In:[a], Back:[b] ==> Round:[a], Out:[b] end initialize ==> Round:[0] end end',
}


def port(kind, name):
    return "<Port kind='%s' name='%s'>%s</Port>" % (kind, name, BYTE)


def instance(name, actor):
    return "<Instance id='%s'><Class name='%s'/></Instance>" % (name, actor)


def join(source, source_port, target, target_port):
    return "<Connection src='%s' src-port='%s' dst='%s' dst-port='%s'/>" % (source, source_port, target, target_port)


def network(name, parts):
    return "<XDF name='%s'>%s</XDF>" % (name, ''.join(parts))


def row(count):
    """A row of actors that add one, from the input to the output."""
    parts = [port('Input', 'In'), port('Output', 'Out')]
    parts += [instance('a%d' % k, 'Inc') for k in range(count)]
    names = [''] + ['a%d' % k for k in range(count)] + ['']
    parts += [join(names[k], 'In' if k == 0 else 'Out', names[k + 1], 'Out' if k == count else 'In')
              for k in range(count + 1)]
    return network('Row', parts)


def ring(count):
    """A ring of actors that add one, round which a token goes for each one that comes in."""
    parts = [port('Input', 'In'), port('Output', 'Out'), instance('s', 'Start')]
    parts += [instance('a%d' % k, 'Inc') for k in range(count - 1)]
    names = ['s'] + ['a%d' % k for k in range(count - 1)]
    parts += [join('', 'In', 's', 'In'), join('s', 'Out', '', 'Out')]
    parts += [join(name, 'Round' if name == 's' else 'Out', names[(k + 1) % count],
                   'Back' if (k + 1) % count == 0 else 'In') for k, name in enumerate(names)]
    return network('Ring', parts)


def tree(leaves):
    """A tree of adders of two inputs: `leaves` - 1 of them, each at the bottom fed twice by the input."""
    parts = [port('Input', 'In'), port('Output', 'Out')]
    parts += [instance('a%d' % k, 'Sum') for k in range(1, leaves)]
    for k in range(1, leaves):
        for side, child in (('A', 2 * k), ('B', 2 * k + 1)):
            parts.append(join('a%d' % child, 'Out', 'a%d' % k, side) if child < leaves else join('', 'In', 'a%d' % k, side))
    parts.append(join('a1', 'Out', '', 'Out'))
    return network('Tree', parts)


def mesh(count):
    """A row of actors with four links from each to the next; the links of the last one are the outputs."""
    parts = [port('Input', 'I%d' % k) for k in range(4)] + [port('Output', 'O%d' % k) for k in range(4)]
    parts += [instance('a%d' % k, 'Many') for k in range(count)]
    ins, outs = 'ABCD', 'WXYZ'
    for k in range(count + 1):
        source, target = ('' if k == 0 else 'a%d' % (k - 1)), ('' if k == count else 'a%d' % k)
        parts += [join(source, 'I%d' % p if k == 0 else outs[p], target, 'O%d' % p if k == count else ins[p])
                  for p in range(4)]
    return network('Mesh', parts)
