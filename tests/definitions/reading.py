"""Document 01 read once more, in plain Python: a row from its bytes with refusals 1 to 6, its netlength, its steps, and the
leftmost among its shortest legal placements by trying all of them. Only for small rows."""

SIZES = {b'RW': (4, 2, 2), b'CE': (4,), b'NT': (4,), b'FP': (4,), b'MP': (2, 4), b'EN': ()}


class Refused(Exception):
    """Carries the number and the place."""

    def answer(self):
        number, place = self.args
        return 2**63 + number * 2**32 + place


class Row:
    def __init__(self):
        self.width, self.said, self.cells, self.nets, self.pins = 0, (0, 0), [], [], 0


class Net:
    """Weight, fixed pins, and the offset on each cell named."""

    def __init__(self, weight):
        self.weight, self.fixed, self.offsets = weight, [], {}


def allowed(row, place, mark):
    n, m = row.said
    if place == 0:
        return mark == b'RW'
    if len(row.cells) < n:
        return mark == b'CE'
    nets = len(row.nets)
    return {b'NT': nets < m, b'EN': nets == m, b'FP': nets > 0, b'MP': nets > 0}.get(mark, False)


def take(row, mark, numbers):
    """Takes a record; False if one of its numbers is outside its range."""
    if mark == b'RW':
        row.width, row.said = numbers[0], (numbers[1], numbers[2])
        return numbers[0] <= 1000000 and numbers[1] <= 256 and numbers[2] <= 512
    if mark == b'CE':
        row.cells.append(numbers[0])
        return 1 <= numbers[0] <= 1000000
    if mark == b'NT':
        row.nets.append(Net(numbers[0]))
        return 1 <= numbers[0] <= 1000
    if mark == b'EN':
        return True
    row.pins += 1
    if mark == b'FP':
        at = numbers[0] - (2**32 if numbers[0] >= 2**31 else 0)
        row.nets[-1].fixed.append(at)
        return row.pins <= 2048 and -1000000 <= at <= 1000000
    cell, offset = numbers
    row.nets[-1].offsets[cell] = offset
    return row.pins <= 2048 and cell < len(row.cells) and offset <= row.cells[cell]


def read(data):
    row, place, at, mark = Row(), 0, 0, b''
    while mark != b'EN':
        mark = data[at:at + 2]
        if len(mark) < 2:
            raise Refused(1, place)
        if not allowed(row, place, mark):
            raise Refused(2, place)
        if mark in (b'NT', b'EN') and row.nets and not row.nets[-1].offsets:
            raise Refused(5, place)
        at += 2
        if len(data) - at < sum(SIZES[mark]):
            raise Refused(1, place)
        numbers = []
        for size in SIZES[mark]:
            numbers.append(int.from_bytes(data[at:at + size], 'little'))
            at += size
        if not take(row, mark, numbers):
            raise Refused(4, place)
        place += 1
    if at < len(data):
        raise Refused(3, place)
    if sum(row.cells) > row.width:
        raise Refused(6, place - 1)
    return row


def netlength(row, sites):
    total = 0
    for net in row.nets:
        pins = net.fixed + [sites[cell] + offset for cell, offset in net.offsets.items()]
        total += net.weight * (max(pins) - min(pins))
    return total


def legal_placements(row, sites=()):
    cell = len(sites)
    if cell == len(row.cells):
        yield list(sites)
        return
    end = sites[-1] + row.cells[cell - 1] if sites else 0
    for site in range(end, row.width - row.cells[cell] + 1):
        yield from legal_placements(row, sites + (site,))


def shortest(row):
    """The netlength and the sites of the leftmost among the shortest, by trying all."""
    tried = [(netlength(row, sites), sites) for sites in legal_placements(row)]
    least = min(tried)[0]
    short = [sites for length, sites in tried if length == least]
    leftmost = [min(column) for column in zip(*short)]
    assert leftmost in short
    return least, leftmost


def changes(row):
    """For each cell the changes that it holds: where, and the weight with its sign."""
    held = [[] for _ in row.cells]
    for net in row.nets:
        left, right = min(net.offsets), max(net.offsets)
        held[left].append((min(net.fixed, default=row.width) - net.offsets[left], -net.weight))
        held[right].append((max(net.fixed, default=0) - net.offsets[right], net.weight))
    return held


def best(row, width, held):
    """l and r: the first and last site of least cost within 0..W - width, by trying every site."""
    def cost(y):
        return sum(abs(w) * max(0, y - at if w > 0 else at - y) for at, w in held)
    costs = [cost(y) for y in range(row.width - width + 1)]
    return costs.index(min(costs)), len(costs) - 1 - costs[::-1].index(min(costs))


def benches(row):
    """The bench after 0, 1, 2 ... steps up to the finish, as (opened, in hand, clumps of (cells, edge), carried)."""
    held = changes(row)
    opened, hand, settled, carried = 0, None, [], 0
    while True:
        clumps = [(cells, edge) for cells, _, _, edge in settled] + ([(hand[0], 0)] if hand else [])
        yield opened, int(hand is not None), clumps, carried
        if hand is None:
            if opened == len(row.cells):
                return
            hand = (1, row.cells[opened], held[opened])
            opened += 1
            continue
        end = settled[-1][1] + settled[-1][3] if settled else 0
        cells, width, own = hand
        l, r = best(row, width, own)
        if end > r:
            other_cells, other_width, other, _ = settled.pop()
            carried += min(len(other), len(own))
            hand = (other_cells + cells, other_width + width, other + [(at - other_width, w) for at, w in own])
        else:
            settled.append((cells, width, own, max(end, l)))
            hand = None


def bench_bytes(bench):
    """The bytes of a bench up to the last that says something."""
    opened, hand, clumps, carried = bench
    data = b'BN' + opened.to_bytes(2, 'little') + bytes([hand]) + len(clumps).to_bytes(2, 'little') + carried.to_bytes(4, 'little')
    return data + b''.join(cells.to_bytes(2, 'little') + edge.to_bytes(4, 'little') for cells, edge in clumps)
