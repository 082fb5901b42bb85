"""The states of a disk by the record of workspace_record.c, and the images that a crash at each moment may leave of it.

A file has the bytes of its last sync, and the writes since then. Of each of these writes a crash leaves all, nothing, or a part,
and anything in the place of the rest; the file ends anywhere from its synced end on. The path names the file that it named when
its folder was last synced, or a file that any process named so since then.
"""
import itertools

SECTOR = 512


def entries(record):
    """The words of each entry, and the bytes that were moved."""
    place = 0
    while place < len(record):
        end = record.index(b"\n", place)
        words = record[place:end].decode().split(" ")
        place = end + 1 + (int(words[-1]) if words[0] in ("write", "told") else 0)
        yield words, record[end + 1:place]


def over(old, at, new):
    """The bytes with these bytes written over them."""
    return (old + bytes(max(0, at - len(old))))[:at] + new + old[at + len(new):]


class Kept:
    """A file: the bytes that are synced, the bytes that a read gives, and the writes since the sync."""

    def __init__(self, data=b""):
        self.synced, self.read, self.open = data, data, ()

    def state(self):
        return self.synced, self.open


class Disk:
    """The files of a folder, and the files that a crash may leave at the path."""

    def __init__(self, path, data=None):
        self.path, self.files, self.told = path, {}, b""
        self.named = None if data is None else Kept(data)
        self.may = [self.named]

    def take(self, words, data):
        """Takes one more call."""
        kind, file = words[0], self.files.get(words[1]) if len(words) > 1 else None
        if kind in ("make", "name", "gone") and words[-1] == self.path:
            self.named = None if kind == "gone" else file or Kept()
            self.may.append(self.named)
        if kind == "make":
            self.files[words[1]] = Kept()
        elif kind == "write" and file:
            file.read = over(file.read, int(words[2]), data)
            file.open += ((int(words[2]), data),)
        elif kind == "size" and file:
            raise ValueError("a file was cut, which no model here has")
        elif kind == "sync" and file:
            file.synced, file.open = file.read, ()
        elif kind == "folder":
            self.may = [self.named]
        elif kind == "told":
            self.told += data

    def begin(self):
        """A process begins."""
        self.told = b""

    def state(self):
        """What a crash now may leave at the path: for each file its synced bytes and its unsynced writes, or None."""
        return tuple(dict.fromkeys(file and file.state() for file in self.may))


def replies(out):
    """The number of replies that are complete."""
    return sum(b'"more":true' not in line for line in out.split(b"\n")[:-1])


def moments(path, record):
    """After each call: the number of replies given, and what a crash may leave at the path."""
    disk = Disk(path)
    yield 0, disk.state()
    for words, data in entries(record):
        disk.take(words, data)
        yield replies(disk.told), disk.state()


# ---- all images ----

def torn(rng, old, new):
    """What may stand in the place of a write: the new bytes up to each place or from each place on, and other bytes."""
    size = len(new)
    others = [(old + bytes(size))[:size], bytes(size), b"\1" * size, b"\xff" * size, rng.randbytes(size)]
    for cut in range(size + 1):
        yield from (new[:cut] + other[cut:] for other in others)
        yield from (other[:cut] + new[cut:] for other in others[::2])
    if size == 1:
        yield from (bytes([other]) for other in range(256))


def opens_gate(part, new):
    """Whether the write is complete, but its last byte is an open gate that nobody wrote."""
    return part != new and part == new[:-1] + b"\1"


def ended(rng, synced, image):
    """The image with each end that it may have, also beyond the last write."""
    yield from (image[:end] for end in range(len(synced), len(image) + 1))
    yield from (image + more for more in (b"\0", b"\2", bytes(SECTOR), rng.randbytes(3)))


def all_images(rng, state, stride):
    """Each subset of the unsynced writes, complete, and one more of them in part. None: there is no file. One of STRIDE is
    drawn."""
    if state is None:
        return [None]
    synced, open_ = state
    return images_of(rng, synced, open_, stride) if open_ else [synced]


def parted(writes):
    """Each choice of some of the writes, and the others."""
    for size in range(len(writes)):
        for whole in itertools.combinations(writes, size):
            yield whole, [write for write in writes if write not in whole]


def torn_images(rng, synced, image, write, stride):
    """The image with one more write, torn. Of STRIDE images that open no gate one is drawn."""
    at, data = write
    for part in torn(rng, image[at:at + len(data)], data):
        images = ended(rng, synced, over(image, at, part))
        yield from (image for image in images if opens_gate(part, data) or stride < 2 or rng.random() * stride < 1)


def images_of(rng, synced, open_, stride):
    for whole, others in parted(open_):
        image = synced
        for at, data in whole:
            image = over(image, at, data)
        for write in others:
            yield from torn_images(rng, synced, image, write, stride)


# ---- images at random ----

def random_image(rng, state, others):
    """One of the images. Parts of these other bytes may stand in the place of what was not written."""
    if state is None or not state[1]:
        return state and state[0]
    synced, open_ = state
    image = synced
    for at, data in rng.sample(open_, len(open_)):
        part = part_of(rng, (image[at:at + len(data)] + bytes(len(data)))[:len(data)], data, others)
        image = over(image, at, part)
    if rng.random() < 0.1:
        image += fill(rng, rng.choice([1, 3, SECTOR, 4096]), others)
    return image if rng.random() < 0.5 else image[:rng.randrange(len(synced), len(image) + 1)]


def fill(rng, size, others):
    """This number of bytes that a disk may have had before."""
    kind = rng.randrange(5)
    if kind == 0 and others:
        start = rng.randrange(len(others))
        return (others[start:start + size] + bytes(size))[:size]
    return rng.randbytes(size) if kind == 1 else bytes([rng.choice([0, 0, 1, 255, rng.randrange(256)])]) * size


def part_of(rng, old, new, others):
    """What may stand in the place of a write."""
    size, how = len(new), rng.randrange(7)
    cut, rest = rng.randrange(size + 1), rng.choice([old, fill(rng, size, others)])
    if how < 2:
        return new if how else old
    if how < 4:
        return new[:cut] + rest[cut:] if how == 2 else rest[:cut] + new[cut:]
    step = rng.choice([1, 2, 8, 64, SECTOR])
    return b"".join(rng.choice([new, rest])[place:place + step] for place in range(0, size, step))
