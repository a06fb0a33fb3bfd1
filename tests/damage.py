"""Rule files damaged at random: bytes changed, left out, put in; types, goals and bodies changed; files put together of two."""

from blind.build import two

EDGES = [0, 1, 2, 5, 6, 7, 8, 9, 16, 17, 32, 33, 64, 65, 255, *b"TYFNGO"]


def flip_bit(rng, data):
    place = rng.randrange(len(data))
    return data[:place] + bytes([data[place] ^ 1 << rng.randrange(8)]) + data[place + 1:]


def replace(rng, data):
    place = rng.randrange(len(data))
    return data[:place] + bytes([rng.choice(EDGES)]) + data[place + 1:]


def nudge(rng, data):
    place = rng.randrange(len(data))
    return data[:place] + bytes([(data[place] + rng.choice((-1, 1))) % 256]) + data[place + 1:]


def truncate(rng, data):
    return data[:rng.randrange(len(data))]


def insert(rng, data):
    place = rng.randrange(len(data) + 1)
    return data[:place] + bytes(rng.choice(EDGES) for _ in range(rng.randint(1, 3))) + data[place:]


def remove(rng, data):
    place = rng.randrange(len(data))
    return data[:place] + data[place + rng.randint(1, 3):]


def splice(rng, data, other):
    """The beginning of one file and the end of another."""
    return data[:rng.randrange(len(data))] + other[rng.randrange(len(other)):]


def retype(rng, data):
    """Another small number somewhere in the types."""
    place = rng.randrange(3, data.index(b"FN"))
    return data[:place] + bytes([rng.randrange(4)]) + data[place + 1:]


def flatten(rng, data):
    """A small D, and sometimes another source."""
    return data[:-5] + bytes([rng.choice((data[-5], rng.randrange(4))), data[-4], rng.randint(1, 2)]) + data[-2:]


def edit_body(rng, data):
    """The last body changed, its stated length following."""
    # That body ends where GO begins, seven bytes before the end of the file.
    heads = [place for place in range(len(data)) if data[place:place + 2] == b"FN"]
    for place in reversed(heads):
        start = place + 4 + data[place + 2] + 2
        length = int.from_bytes(data[start - 2:start], "little") if start <= len(data) else 0
        if start + length == len(data) - 7:
            body = rng.choice((replace, nudge, insert, remove))(rng, data[start:start + length])
            return data[:start - 2] + two(len(body)) + body + data[-7:]
    raise AssertionError("an accepted file has a last body")


def random_damaged(rng, files, count):
    damages = [flip_bit, replace, nudge, truncate, insert, remove, retype, flatten, edit_body, edit_body, edit_body]
    damaged = []
    for number in range(count):
        data = files[number % len(files)]
        if number % 20 == 19:
            damaged.append(splice(rng, data, rng.choice(files)))
        else:
            damaged.append(damages[number % len(damages)](rng, data))
    return damaged
