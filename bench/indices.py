"""Packs, indices and multi-pack indices with SHA-1 and SHA-256: made, and read again. For probe_index.py and fuzz_index.py."""

import hashlib
import struct

SIGNATURE = b"\xfftOc\0\0\0\2"
HASHES = {20: hashlib.sha1, 32: hashlib.sha256}


def counts(ids):
    """The 256 cumulative counts of ids that rise."""
    table, below = [0] * 256, 0
    for name in ids:
        table[name[0]] += 1
    for first in range(256):
        below += table[first]
        table[first] = below
    return struct.pack(">256I", *table)


def narrow(offsets):
    """Offsets in four bytes each, and the table of the wide ones."""
    short, wide = [], []
    for offset in offsets:
        short.append(offset if offset < 2**31 else 2**31 + len(wide))
        wide += [offset] if offset >= 2**31 else []
    return short, struct.pack(">%dQ" % len(wide), *wide)


def index(rows, width):
    """The index of rows of an id and an offset, for a pack whose hash is zeros."""
    rows = sorted(rows)
    short, wide = narrow([offset for _, offset in rows])
    ids = [name for name, _ in rows]
    body = SIGNATURE + counts(ids) + b"".join(ids) + bytes(4 * len(rows)) + struct.pack(">%dI" % len(rows), *short)
    body += wide + bytes(width)
    return body + HASHES[width](body).digest()


def multi_index(names, rows, width):
    """The multi-pack index of names and of rows of an id, a pack's number and an offset."""
    rows = sorted(rows)
    ids, offsets = [row[0] for row in rows], [row[2] for row in rows]
    short, wide = narrow(offsets) if any(offset >= 2**32 for offset in offsets) else (offsets, b"")
    chunks = [(b"PNAM", padded(b"".join(name.encode() + b"\0" for name in names))), (b"OIDF", counts(ids))]
    chunks += [(b"OIDL", b"".join(ids))]
    chunks += [(b"OOFF", b"".join(struct.pack(">II", row[1], offset) for row, offset in zip(rows, short)))]
    chunks += [(b"LOFF", wide)] if wide else []
    body = b"MIDX\1" + bytes([1 if width == 20 else 2, len(chunks), 0]) + struct.pack(">I", len(names))
    body += chunk_table(chunks) + b"".join(part for _, part in chunks)
    return body + HASHES[width](body).digest()


def padded(names):
    return names + bytes(-len(names) % 4)


def chunk_table(chunks):
    place, table = 12 + 12 * (len(chunks) + 1), b""
    for name, part in chunks:
        table += name + struct.pack(">Q", place)
        place += len(part)
    return table + bytes(4) + struct.pack(">Q", place)


def numbers(form, part):
    return list(struct.unpack(">%d%s" % (len(part) // struct.calcsize(form), form), part))


def split(part, size):
    return [part[place : place + size] for place in range(0, len(part), size)]


def rises(items):
    return all(low < high for low, high in zip(items, items[1:]))


def read_index(body, width):
    """The rows of an index by their ids, or None where the bytes are none."""
    if body[:8] != SIGNATURE or len(body) < 1032:
        return None
    n = struct.unpack(">I", body[1028:1032])[0]
    left = len(body) - (1032 + n * (width + 8) + 2 * width)
    if left < 0 or left % 8:
        return None
    ids, places = split(body[1032 : 1032 + n * width], width), 1032 + n * (width + 4)
    short, wide = numbers("I", body[places : places + 4 * n]), numbers("Q", body[places + 4 * n : places + 4 * n + left])
    if not rises(ids) or body[8:1032] != counts(ids) or any(offset - 2**31 >= len(wide) for offset in short):
        return None
    return {name: offset if offset < 2**31 else wide[offset - 2**31] for name, offset in zip(ids, short)}


def chunks_of(body, width):
    """The chunks of a multi-pack index by their names, or None where the table isn't one or a known chunk stands twice."""
    rows = 12 + 12 * (body[6] + 1)
    if rows + width > len(body):
        return None
    table = [(row[:4], struct.unpack(">Q", row[4:])[0]) for row in split(body[12:rows], 12)]
    places = [place for _, place in table]
    if sorted(places) != places or table[-1] != (bytes(4), len(body) - width):
        return None
    found = {}
    for (name, place), (_, end) in zip(table, table[1:]):
        if name in found and name in (b"PNAM", b"OIDF", b"OIDL", b"OOFF", b"LOFF"):
            return None
        found[name] = body[place:end]
    return found


def is_name(name):
    try:
        name.decode()
    except UnicodeDecodeError:
        return False
    return len(name) > 4 and name.endswith(b".idx") and b"/" not in name


def names_of(part, packs):
    """The names of so many packs, or None where the chunk holds something else."""
    parts = part.split(b"\0")
    names = parts[:packs]
    if packs >= len(parts) or any(parts[packs:]) or not all(map(is_name, names)) or not rises(names):
        return None
    return [name.decode() for name in names]


def read_multi_index(body):
    """The rows of a multi-pack index by their ids, with offset and name, or None where the bytes are none."""
    if len(body) < 12 or body[:5] != b"MIDX\1" or body[5] not in (1, 2) or body[7]:
        return None
    width, packs = (20, 32)[body[5] - 1], struct.unpack(">I", body[8:12])[0]
    parts = chunks_of(body, width)
    if parts is None or any(name not in parts for name in (b"PNAM", b"OIDF", b"OIDL", b"OOFF")):
        return None
    names = names_of(parts[b"PNAM"], packs)
    if names is None or len(parts[b"OIDF"]) != 1024:
        return None
    n, ids = struct.unpack(">I", parts[b"OIDF"][1020:])[0], split(parts[b"OIDL"], width)
    wide = parts.get(b"LOFF")
    sizes = (len(parts[b"OIDL"]), len(parts[b"OOFF"]), len(wide or b"") % 8)
    if sizes != (n * width, n * 8, 0) or not rises(ids) or parts[b"OIDF"] != counts(ids):
        return None
    return rows_of(ids, numbers("I", parts[b"OOFF"]), names, None if wide is None else numbers("Q", wide))


def rows_of(ids, pairs, names, wide):
    found = {}
    for name, pack, offset in zip(ids, pairs[::2], pairs[1::2]):
        is_wide = wide is not None and offset >= 2**31
        if pack >= len(names) or (is_wide and offset - 2**31 >= len(wide)):
            return None
        found[name] = (wide[offset - 2**31] if is_wide else offset, names[pack])
    return found
