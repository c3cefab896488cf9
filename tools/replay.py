"""Image and area of a sheet, from the `dat` and `typ` lines of its listing and
the end of allocation.

    memory(listing, end) -> (image, area), or None where 13 refuses
    text(listing, end)   -> the text of a NAME.img file
"""

ROOM = 65536  # bytes in each buffer


class Full(Exception):
    pass


class Memory:
    """Bytes that grow by zeros, up to the buffer's size."""

    def __init__(self, size=0):
        self.bytes = bytearray()
        self.reach(size)

    def reach(self, size):
        if size > ROOM:
            raise Full
        self.bytes += bytes(max(0, size - len(self.bytes)))

    def write(self, at, data):
        self.reach(at + len(data))
        self.bytes[at : at + len(data)] = data


def value_bytes(kind, texts):
    if kind == "reals":
        return bytes.fromhex("".join(texts))
    size = {"bytes": 1, "words": 4, "bigs": 8}[kind]
    values = (int(text) % 256**size for text in texts)
    return b"".join(value.to_bytes(size, "big") for value in values)


def replay(items, sizes, end):
    image, area = Memory(end), Memory()
    parts = {}  # start of the newest array at each place
    into, base = image, 0
    for number, (kind, *fields) in enumerate(items):
        handle = (number + 1).to_bytes(4, "big")
        if kind == "back":
            into, base = image, 0
            continue
        offset = int(fields[0])
        if kind == "set":
            into, base = area, parts[offset]
        elif kind == "array":
            start = (len(area.bytes) + 7) // 8 * 8
            area.reach(start + sizes[fields[1]] * int(fields[2]))
            parts[offset] = start
            into.write(base + offset, handle)
        elif kind == "str":
            into.write(base + offset, handle)
        else:
            data = value_bytes(kind, fields[2:])
            assert len(fields) == 2 + int(fields[1])
            into.write(base + offset, data)
    return bytes(image.bytes), bytes(area.bytes)


def memory(listing, end):
    rows = [row.split(",") for row in listing.decode("ascii").splitlines()]
    items = [row[1:] for row in rows if row[0] == "dat"]
    sizes = {row[1]: int(row[2]) for row in rows if row[0] == "typ"}
    try:
        return replay(items, sizes, end)
    except Full:
        return None


def text(listing, end):
    laid = memory(listing, end)
    if laid is None:
        return b"no,13,0\n"
    return "image,{}\narea,{}\n".format(*(part.hex().upper() for part in laid)).encode()
