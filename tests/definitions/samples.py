"""Random small rows as bytes, and damaged forms of them."""
import struct


def records(r):
    """The records of a row of up to 4 cells; ties are frequent."""
    cells = [r.randint(1, 3) for _ in range(r.choice([0, 1, 2, 2, 3, 3, 4, 4]))]
    width = sum(cells) + r.choice([0, 1, 2, 3, 5])
    nets = r.randint(0, 4) if cells else 0
    made = [struct.pack('<2sIHH', b'RW', width, len(cells), nets)] + [struct.pack('<2sI', b'CE', w) for w in cells]
    for _ in range(nets):
        pins = []
        for _ in range(r.choice([1, 1, 2, 2, 3])):
            cell = r.randrange(len(cells))
            pins.append(struct.pack('<2sHI', b'MP', cell, r.randint(0, cells[cell])))
        pins += [struct.pack('<2si', b'FP', r.randint(-3, width + 3)) for _ in range(r.choice([0, 1, 1, 2]))]
        r.shuffle(pins)
        made += [struct.pack('<2sI', b'NT', r.choice([1, 1, 1, 2, 3]))] + pins
    return made + [b'EN']


def damaged(r):
    """The bytes of a row with one damage; sometimes it is a sound row again."""
    made = records(r)
    at = r.randrange(len(made))
    kind = r.randrange(8)
    if kind == 0:
        del made[at]
    elif kind == 1:
        made.insert(at, made[at])
    elif kind == 2:
        made[at] = r.choice([b'RW', b'CE', b'NT', b'FP', b'MP', b'EN', b'en', b'??']) + made[at][2:]
    elif kind == 3:
        other = r.randrange(len(made))
        made[at], made[other] = made[other], made[at]
    elif kind == 4:
        made = [one for one in made if one[:2] != b'MP'] if r.random() < .5 else made + [r.choice([b'E', b'EN', b'\0'])]
    elif kind == 5:
        made[0] = made[0][:2] + max(0, sum(one[2] for one in made if one[:2] == b'CE') - 1).to_bytes(4, 'little') + made[0][6:]
    data = bytearray(b''.join(made))
    if kind == 6:
        del data[r.randrange(len(data)):]
    elif kind == 7:
        spot = r.randrange(len(data))
        data[spot] = r.choice([0, 1, 127, 128, 255, data[spot] ^ 1])
    return bytes(data)
