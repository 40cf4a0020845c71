"""Where the addresses of a process lie: the file, and the symbol of a lock or of a function, as far as they can be known."""
import bisect, os, stat, struct

from shfl_process import printable


class Places:
    """Where addresses of a process lie."""

    def __init__(self, pid):
        self.maps, self.tables, self.extents = [], {}, {}
        try:
            with open(f"/proc/{pid}/maps", encoding="utf-8", errors="replace") as lines:
                for line in lines:
                    words = line.split(None, 5)
                    low, high = (int(it, 16) for it in words[0].split("-"))
                    self.maps.append((low, high, int(words[2], 16), words[5].strip() if len(words) > 5 else ""))
        except OSError:
            pass

    def of(self, address, functions=False):
        """The file's name and what is shown."""
        base, last = {}, ""
        for low, high, offset, name in self.maps:
            if name.startswith("/"):
                base.setdefault(name, low - offset)
                last = name
            if low <= address < high:
                # (the zeroed data of a file follow it without a name, and so may what isn't the file's)
                if not name and last and address < base[last] + self.extent(last):
                    name = last
                if name.startswith("["):
                    return name.strip("[]"), f"{name.strip('[]')}+{address - low:#x}"
                if name:
                    return printable(os.path.basename(name)), printable(self.symbol(name, address - base[name], functions))
        return "", f"{address:#x}"

    def extent(self, name):
        if name not in self.extents:
            try:
                parts = parts_of(bytes_of(name, 1 << 16))
                self.extents[name] = max((at + size for at, size in parts), default=0) - min(parts, default=(0, 0))[0]
            except (OSError, struct.error, ValueError, OverflowError):
                self.extents[name] = 0
        return self.extents[name]

    def caller(self, address):
        """The same of the call before a return address."""
        return self.of(address - 1, functions=True)

    def symbol(self, name, offset, functions):
        key = (name, functions)
        if key not in self.tables:
            try:
                self.tables[key] = symbols(name, 2 if functions else 1)
            except (OSError, struct.error, IndexError, UnicodeDecodeError, ValueError, OverflowError):
                self.tables[key] = []
        table = self.tables[key]
        place = bisect.bisect_right(table, (offset + 1,))
        # (a symbol may stand within another one)
        for at, size, text in reversed(table[max(0, place - 4):place]):
            if at <= offset < at + size:
                return text + (f"+{offset - at:#x}" if offset > at else "")
        return f"{os.path.basename(name)}+{offset:#x}"


def named(it, places):
    """What is known of a lock: the file, what is shown of where it lies, and the same of the call that found it taken first."""
    file, where = places.of(it["address"])
    caller = places.caller(it["caller"]) if it.get("caller") else None
    has_symbol = not (where.startswith("0x") or where.startswith(f"{file}+0x"))
    return file, where, caller, has_symbol


def shown(it, places):
    """Where the lock lies, or who waited for it first where that has no name."""
    _, where, caller, has_symbol = named(it, places)
    return f"by {caller[1]}" if caller and not has_symbol else where


def bytes_of(name, most=-1):
    """What is read of a file. (A look at a device may wait, or do something; what is mapped there is no program.)"""
    if not stat.S_ISREG(os.stat(name).st_mode):
        return b""
    with open(name, "rb") as file:
        return file.read(most)


def parts_of(data):
    """Where the parts of an ELF file of 64 bits are loaded, and their sizes there."""
    if data[:6] != b"\x7fELF\x02\x01":
        return []
    start, (size, count) = struct.unpack_from("<Q", data, 32)[0], struct.unpack_from("<HH", data, 54)
    heads = [struct.unpack_from("<IIQQQQQ", data, start + k * size) for k in range(count)]
    return [(it[3], it[6]) for it in heads if it[0] == 1]


def symbols(name, wanted):
    """The symbols of a kind (1 data, 2 functions) in an ELF file of 64 bits: offset from where it is loaded, size, name."""
    data = bytes_of(name)
    if data[:6] != b"\x7fELF\x02\x01":
        return []
    is_fixed = struct.unpack_from("<H", data, 16)[0] == 2
    heads, size, count = struct.unpack_from("<Q", data, 40)[0], *struct.unpack_from("<HH", data, 58)
    sections = [struct.unpack_from("<IIQQQQIIQQ", data, heads + k * size) for k in range(count)]
    first = min(parts_of(data), default=(0, 0))[0] if is_fixed else 0
    found = []
    for kind, at, size, link in ((it[1], it[4], it[5], it[6]) for it in sections):
        if kind not in (2, 11):
            continue
        texts = sections[link][4]
        for place in range(at, at + size, 24):
            text, info, _, _, value, length = struct.unpack_from("<IBBHQQ", data, place)
            if info & 15 == wanted and length and value:
                begin = texts + text
                found.append((value - first, length, data[begin:data.index(b"\0", begin)].decode()))
    return sorted(set(found))
