"""The form in which the front end takes changes and gives back what was accepted: records, each a word and bytes."""


def record(word, data=b""):
    """Returns a record. A text is its UTF-8."""
    data = data if isinstance(data, bytes) else data.encode()
    return b"%s %d\n%s\n" % (word.encode(), len(data), data)


def record_at(data, place):
    """Returns the word and the bytes of the record at a place, and the place behind it. Raises ValueError if there is none."""
    head = data.index(b"\n", place)
    word, length = data[place:head].split(b" ")
    end = head + 1 + int(length)
    if data[end : end + 1] != b"\n":
        raise ValueError("a record is cut off")
    return word.decode(), data[head + 1 : end], end + 1


def records_in(data):
    """Yields the word and the bytes of each record. Raises ValueError where there is none."""
    place = 0
    while place < len(data):
        word, value, place = record_at(data, place)
        yield word, value
