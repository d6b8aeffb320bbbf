"""A folder's three files as a disk keeps them, read from the calls that bench/faults.c wrote down, and what a loss of power
may leave of them.

Of a file a loss of power leaves a length between the least and the greatest since its last good sync, and any byte at each
place that was written since, or that lies past the least length. A byte that is on the disk is not endangered by being
written once more as it is: a system writes whole pages, so any write near it does the same. A sync that fails leaves
places that no later sync brings to the disk, unless they are written again, as Linux does it. The name of a file or
folder may be gone until the folder above it is synced.
"""

import errno
import os
import re

NAMES = ("select", "left", "right")
CLEAN, DIRTY, LOST = 0, 1, 2
O_CREAT = 0o100
INTERRUPTED = -errno.EINTR


class File:
    """A file: its bytes as a read gives them, and what a good sync left of it."""

    def __init__(self, data=b"", named=True):
        self.cache, self.disk = bytearray(data), bytes(data)
        self.places = bytearray(len(data))
        self.pending = []
        self.least = self.most = len(data)
        self.length_is_lost = False
        self.named = named

    def write(self, at, data):
        grown = at + len(data) - len(self.cache)
        if grown > 0:
            self.cache += bytes(grown)
            self.places += bytes([DIRTY]) * grown
        for place, byte in enumerate(data, at):
            if self.places[place] != CLEAN or self.cache[place] != byte:
                self.places[place] = DIRTY
        self.cache[at : at + len(data)] = data
        self.pending.append((at, data))
        self.most = max(self.most, len(self.cache))

    def cut(self, length):
        del self.cache[length:], self.places[length:]
        self.cache += bytes(length - len(self.cache))
        self.places += bytes([DIRTY]) * (length - len(self.places))
        self.least = min(self.least, length)
        self.length_is_lost = False

    def sync(self):
        """A good sync, which brings to the disk what is dirty, and not what is lost."""
        if LOST in self.places or self.length_is_lost:
            old = self.disk.ljust(len(self.cache), b"\0")
            self.disk = bytes(
                old[i] if place == LOST else self.cache[i] for i, place in enumerate(self.places)
            )
            self.places = bytearray(LOST if place == LOST else CLEAN for place in self.places)
            if not self.length_is_lost:
                self.least = self.most = len(self.cache)
            return
        named = self.named
        self.__init__(bytes(self.cache), named)

    def lose(self):
        """A sync, or a writing behind the back of all, that failed."""
        self.places = bytearray(LOST if place == DIRTY else place for place in self.places)
        if self.least != self.most:
            self.length_is_lost = True

    def image(self, length, other):
        """So many bytes, with those of another wherever a loss of power may leave any."""
        found = self.cache[:length].ljust(length, b"\0")
        for run in re.finditer(rb"[^\0]+", self.places[:length]):
            found[run.start() : run.end()] = other[run.start() : run.end()]
        found[self.least :] = other[self.least : length]
        return bytes(found)

    def images(self, draw):
        """What may be left: each subset of what was written, and other bytes, with several lengths."""
        missing = [] if self.named else [None]
        if self.least == self.most and not any(self.places):
            return [bytes(self.cache)] + missing
        others = [bytes([byte]) * self.most for byte in (0, 1, 255)] + [draw.randbytes(self.most)]
        for subset in range(1 << min(len(self.pending), 4)):
            data = bytearray(self.disk.ljust(self.most, b"\0"))
            for number, (at, piece) in enumerate(self.pending[-4:]):
                if subset >> number & 1:
                    data[at : at + len(piece)] = piece
            others.append(bytes(data))
        lengths = {self.least, self.most, draw.randint(self.least, self.most)}
        found = [self.image(length, other) for other in others for length in sorted(lengths)]
        return list(dict.fromkeys(found)) + missing


class Disk:
    """The files of a folder, and the folders on the way to it, as they stand behind some calls."""

    def __init__(self, folder, data, unnamed=()):
        self.folder = os.path.normpath(folder)
        self.files = {name: File(piece) for name, piece in data.items() if piece is not None}
        self.unnamed = set(unnamed)
        self.opened = {}

    def file_at(self, descriptor):
        path = self.opened.get(descriptor, "")
        return self.files.get(os.path.basename(path)) if os.path.dirname(path) == self.folder else None

    def follow(self, line):
        """One more call."""
        name, descriptor, answer, number, payload = line.split(" ")
        descriptor, answer, number = int(descriptor), int(answer), int(number)
        if name == "open" and answer >= 0:
            self.open(os.path.normpath(bytes.fromhex(payload).decode()), answer, number)
        elif name == "mkdir" and answer == 0:
            self.unnamed.add(os.path.normpath(bytes.fromhex(payload).decode()))
        elif name == "close":
            self.opened.pop(descriptor, None)
        elif name == "fsync" and answer != INTERRUPTED:
            self.sync(descriptor, answer == 0)
        elif self.file_at(descriptor) and answer >= 0 and name == "write":
            self.file_at(descriptor).write(number, bytes.fromhex(payload))
        elif self.file_at(descriptor) and answer == 0 and name == "ftruncate":
            self.file_at(descriptor).cut(number)

    def open(self, path, descriptor, flags):
        self.opened[descriptor] = path
        name = os.path.basename(path)
        if flags & O_CREAT and os.path.dirname(path) == self.folder and name not in self.files:
            self.files[name] = File(named=False)

    def sync(self, descriptor, is_good):
        file, path = self.file_at(descriptor), self.opened.get(descriptor)
        if file and is_good:
            file.sync()
        elif file:
            file.lose()
        elif is_good:
            self.unnamed -= {folder for folder in self.unnamed if os.path.dirname(folder) == path}
            if path == self.folder:
                for file in self.files.values():
                    file.named = True

    def end_process(self):
        self.opened = {}

    def lose_behind(self):
        """The system fails to write what is dirty, and nobody is told yet. Gives the names of these files."""
        found = [name for name, file in self.files.items() if DIRTY in file.places or file.least != file.most]
        for name in found:
            self.files[name].lose()
        return found

    def images(self, draw, most):
        """Some of what may be left, each as the bytes of the files, None for one that is missing."""
        if self.unnamed and draw.random() < 0.5:
            yield dict.fromkeys(NAMES)
        each = {name: self.files[name].images(draw) if name in self.files else [None] for name in NAMES}
        count = min(most, sum(len(images) for images in each.values()))
        order = [(name, image) for name in NAMES for image in each[name]]
        for name, image in draw.sample(order, count):
            picked = {other: draw.choice(each[other]) for other in NAMES}
            picked[name] = image
            yield picked
