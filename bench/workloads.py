"""Makes the recordings and base images of the benchmark: workloads.py FOLDER.

Prints a line for each workload: its name, its number of states, its number of crash points."""
import struct
import sys

FLUSH, MARK = 1, 8


def words(*values):
    return struct.pack(f"<{len(values)}I", *values).ljust(512, b"\0")


def base(count, files=0):
    """A journalled image with no transaction; nodes 1 to `files` are files of 512 bytes, from sector 10 on."""
    head = words(1 << 30 | 1, 2 << 30 | count, 3 << 30)
    nodes = words(1 << 30, *(2 << 30 | 512 << 16 | 9 + node for node in range(1, files + 1)))
    data = b"".join(bytes((7 * node + i) % 256 for i in range(512)) for node in range(1, files + 1))
    return (head + nodes + bytes(8 * 512) + data).ljust(512 * count, b"\0")


def entry(sector=0, flags=0, text=b"", data=b""):
    fields = struct.pack("<QQQQ", sector, len(data) // 512, flags, len(text))
    return (fields + text).ljust(512, b"\0") + data


def recording(entries):
    head = b"rhswfsj\0" + struct.pack("<QQI", 1, len(entries), 512)
    return head.ljust(512, b"\0") + b"".join(entries)


def writes(first):
    """20 sectors written once each, no flush: 2^20 states after the last, 2^21 - 1 in all."""
    return [entry(first + i, data=bytes([i + 1]) * 512) for i in range(20)]


def rounds(number):
    """Rounds of a write, a mark, a flush and a mark. The points after them have 2, 2, 1 and 1 states."""
    made = []
    for i in range(number):
        made.append(entry(11 + i % 50, data=bytes([i + 101]) * 512))
        made.append(entry(flags=MARK, text=b"x %d" % (i % 15 + 1)))
        made.append(entry(flags=FLUSH))
        made.append(entry(flags=MARK, text=b"s %d" % (i % 15 + 1)))
    return made


WORKLOADS = [
    ("empty", base(64), [], 1),
    ("entries-256", base(64), rounds(64), 1 + 64 * 6),
    ("writes-20", base(32), writes(11), 2**21 - 1),
    ("after-236", base(64), rounds(59) + writes(11), 59 * 6 + 2**21 - 1),
    ("files-15", base(64, files=15), writes(30), 2**21 - 1),
]

for name, image, entries, states in WORKLOADS:
    with open(f"{sys.argv[1]}/{name}.img", "wb") as file:
        file.write(image)
    with open(f"{sys.argv[1]}/{name}.log", "wb") as file:
        file.write(recording(entries))
    print(name, states, len(entries) + 1)
