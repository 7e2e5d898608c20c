"""Objects in the form in which git hands them on, all in one: so no file is needed for each."""
import functools

BLOB = 3


@functools.lru_cache(maxsize=None)
def digest_of_nothing(algorithm):
    """Returns the digest of no bytes. A copy of it is made sooner than a new one."""
    # until the first screen nothing needs a digest, and OpenSSL takes long to load
    import hashlib

    return hashlib.new(algorithm, usedforsecurity=False)


def name_of(data, algorithm):
    """Returns git's name of the object that has these bytes. `algorithm` is `sha1` or `sha256`."""
    made = digest_of_nothing(algorithm).copy()
    made.update(b"blob %d\0" % len(data))
    made.update(data)
    return made.hexdigest()


def head_of(size):
    """Returns what is before an object of `size` bytes: its kind, and its size by four bits and then by seven to a byte."""
    head, rest = [BLOB << 4 | size & 15], size >> 4
    while rest:
        head[-1] |= 128
        head.append(rest & 127)
        rest >>= 7
    return bytes(head)


def compressed(data):
    """Returns bytes as an object has them. A window and a table that are no larger than they need are sooner made ready."""
    import zlib

    bits = len(data).bit_length()
    packer = zlib.compressobj(1, wbits=min(max(bits, 9), zlib.MAX_WBITS), memLevel=min(max(bits - 5, 1), zlib.DEF_MEM_LEVEL))
    return packer.compress(data) + packer.flush()


def pack_of(contents, algorithm):
    """Returns a pack with an object for each of `contents`."""
    import hashlib
    import struct

    objects = [head_of(len(data)) + compressed(data) for data in contents]
    pack = b"".join([b"PACK", struct.pack(">LL", 2, len(objects)), *objects])
    return pack + hashlib.new(algorithm, pack, usedforsecurity=False).digest()
