"""What a machine is started from, and the bundle that it is written as (docs/FORMATS.md, "The bundle")."""

from typing import List, NamedTuple

MAGIC = b"SKYB"

# The least and the greatest number of each thing that a bundle counts.
LIMITS = {
    "cores": (1, 8),
    "processes": (1, 16),
    "frames": (513, 8192),
    "key words": (0, 128),
    "entries of the schedule": (0, 1048576),
    "bytes of text": (1, 2097152),
    "bytes of initial data": (0, 2097152),
    "heap pages": (0, 512),
}
WORD_BITS = 64  # of key words and addresses


class Process(NamedTuple):
    text: bytes
    data: bytes
    heap_pages: int


class Core(NamedTuple):
    """A core, with the number of the process that its thread belongs to and the address of its first instruction."""

    process: int
    entry: int


class Machine(NamedTuple):
    frames: int
    keys: List[int]
    processes: List[Process]
    cores: List[Core]
    schedule: bytes

    def bundle(self) -> bytes:
        """The bytes of the bundle, for a machine within the limits."""
        parts = [MAGIC, little(1, 2), little(len(self.cores), 1), little(len(self.processes), 1)]
        parts += [little(count, 4) for count in (self.frames, len(self.keys), len(self.schedule))]
        parts += [little(key, 8) for key in self.keys]
        for process in self.processes:
            parts += [little(count, 4) for count in (len(process.text), len(process.data), process.heap_pages)]
            parts += [process.text, process.data]
        for core in self.cores:
            parts += [little(core.process, 4), little(core.entry, 8)]
        return b"".join(parts + [self.schedule])


def little(number: int, size: int) -> bytes:
    return number.to_bytes(size, "little")


class Reader:
    """Fields of a bundle that is one, in their order."""

    def __init__(self, image: bytes):
        self.image, self.at = image, len(MAGIC) + 2

    def field(self, size: int) -> bytes:
        self.at += size
        return self.image[self.at - size : self.at]

    def number(self, size: int) -> int:
        return int.from_bytes(self.field(size), "little")


def machine_of(image: bytes) -> Machine:
    """The machine of a bundle, which is not judged: the program does that."""
    reader = Reader(image)
    cores, processes = reader.number(1), reader.number(1)
    frames, keys, steps = (reader.number(4) for _ in range(3))
    words = [reader.number(8) for _ in range(keys)]
    found = []
    for _ in range(processes):
        text, data, heap_pages = (reader.number(4) for _ in range(3))
        found.append(Process(reader.field(text), reader.field(data), heap_pages))
    placed = [Core(reader.number(4), reader.number(8)) for _ in range(cores)]
    return Machine(frames, words, found, placed, reader.field(steps))
