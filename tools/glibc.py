"""The version of the GNU C Library that programs and shared libraries need, by their versioned symbols."""
import re
import struct

# the beginning of an ELF file of 64 bits, whose numbers begin with the least byte
ELF = b"\x7fELF\x02\x01"
# the types of two sections: what is linked when a program begins, and the versions of symbols
LINKED, VERSIONS = 6, 0x6FFFFFFE
# the libraries that come with the GNU C Library, and the names of its versions
LIBRARY = re.compile(r"(?:libc|libm|libdl|librt|libpthread|ld-linux[\w-]*)\.so\.\d+")
VERSION = re.compile(r"GLIBC_(\d+)\.(\d+)(?:\.\d+)?")


class Unknown(Exception):
    """A file needs something else, or is no ELF file of 64 bits."""


class Elf:
    """An ELF file."""

    def __init__(self, data):
        if not data.startswith(ELF):
            raise Unknown("it is no ELF file of 64 bits")
        self.data = data
        start, size, count = *struct.unpack_from("<Q", data, 40), *struct.unpack_from("<HH", data, 58)
        # of each: its type, where it begins, how long it is, and the section with its texts
        headers = (struct.unpack_from("<4xI16xQQI", data, start + size * index) for index in range(count))
        self.sections = list(headers)

    def text(self, section, place):
        """Returns the text at a place of the texts of a section."""
        start = self.sections[section[3]][1] + place
        return self.data[start:self.data.index(b"\0", start)].decode()

    def of_type(self, kind):
        return [section for section in self.sections if section[0] == kind]

    def libraries(self):
        """Yields the names of the libraries that it is linked with."""
        for section in self.of_type(LINKED):
            for tag, value in struct.iter_unpack("<QQ", self.data[section[1]:section[1] + section[2]]):
                if tag == 1:
                    yield self.text(section, value)

    def versions_at(self, section, place, count):
        """Yields the names of the versions that it needs of one library."""
        for _ in range(count):
            name, step = struct.unpack_from("<8xII", self.data, place)
            yield self.text(section, name)
            place += step

    def versions(self):
        """Yields the names of the versions of symbols that it needs."""
        for section in self.of_type(VERSIONS):
            place, step = section[1], 1
            while step:
                count, first, step = struct.unpack_from("<2xH4xII", self.data, place)
                yield from self.versions_at(section, place + first, count)
                place += step


def matched(pattern, name):
    """Returns how the whole name matches, or raises Unknown."""
    match = pattern.fullmatch(name)
    if not match:
        raise Unknown("it needs " + name)
    return match


def needed_by(data):
    """Returns the version of the GNU C Library that an ELF file needs: a pair of numbers, which is (0, 0) if it needs none. Raises
    Unknown if it needs anything else."""
    file = Elf(data)
    for name in file.libraries():
        matched(LIBRARY, name)
    versions = [tuple(map(int, matched(VERSION, name).groups())) for name in file.versions()]
    return max(versions, default=(0, 0))
