"""A plain model of both ends' frames, written from docs/protocol.md: it makes the inputs that bench/run measures.

`python3 frames.py END ticks N` and `python3 frames.py END frames LENGTH N` print a node file for `fsoe_tool node END`, where
END is `master` or `slave`: N ticks, or the peer's frames of a session with N data frames. `python3 frames.py pair frames LENGTH N`
prints a pair file for `fsoe_tool replay`, in which the last frame comes to each end in turn, so many times after the handshake.
`python3 frames.py trace frames LENGTH N` prints the trace of a session with N data frames of each end for `fsoe_tool diagnose`.
`python3 frames.py image samples N` prints 64 slots of slaves at lengths 2 and 2, and N samples, for `fsoe_tool image`, and
`python3 frames.py image frames LENGTH N SLOTS` so many slots of slaves: the master's frames of a session are written into all of them,
and sampled at once.
"""
import sys

RESET, SESSION, CONNECTION, PARAMETER, PROCESS_DATA = 0x2A, 0x4E, 0x64, 0x52, 0x36
CONN, ADDRESS, WATCHDOG, MASTER_ID, SLAVE_ID = 1, 2, 1000, 1, 2


def _table():
    table = []
    for high in range(256):
        value = high << 8
        for _ in range(8):
            value <<= 1
            if value >= 0x10000:
                value ^= 0x139B7
        table.append(value)
    return table


TABLE = _table()


def crc(covered):
    value = 0
    for byte in covered:
        value ^= byte << 8
        value = (value << 8) & 0xFFFF ^ TABLE[value >> 8]
    return value


def low_high(number):
    return [number & 0xFF, number >> 8]


def groups(load):
    return [load] if len(load) == 1 else [load[i:i + 2] for i in range(0, len(load), 2)]


def crcs(last, conn, seq, command, load):
    out = []
    for i, group in enumerate(groups(load)):
        place = low_high(i) if i else []
        out.append(crc(low_high(last) + low_high(conn) + low_high(seq) + [command] + place + group + [0, 0, 0]))
    return out


def layout(command, load, sums, conn):
    frame = [command]
    for group, value in zip(groups(load), sums):
        frame += group + low_high(value)
    return bytes(frame + low_high(conn))


class Sender:
    """The frames that one end sends in a session."""

    def __init__(self):
        self.seq, self.previous = None, None

    def seal(self, last, conn, command, load):
        seq = 1 if self.seq is None else self.seq % 65535 + 1
        sums = crcs(last, conn, seq, command, load)
        if sums[0] == self.previous:
            seq = seq % 65535 + 1
            sums = crcs(last, conn, seq, command, load)
        self.seq, self.previous = seq, sums[0]
        return layout(command, load, sums, conn), sums[0]


def reset_frame(code, length):
    load = [code] + [0] * (length - 1)
    return layout(RESET, load, crcs(0, 0, 1, RESET, load), 0)


def handshake(length):
    """The payloads of a handshake at equal lengths, piece by piece: command, connection id, load, slave's load."""
    payloads = [
        (SESSION, 0, low_high(MASTER_ID), low_high(SLAVE_ID)),
        (CONNECTION, CONN, low_high(CONN) + low_high(ADDRESS), None),
        (PARAMETER, CONN, low_high(2) + low_high(WATCHDOG) + low_high(0), None),
    ]
    for command, conn, payload, answer in payloads:
        for at in range(0, len(payload), length):
            pad = lambda whole: (whole[at:at + length] + [0] * length)[:length]
            yield command, conn, pad(payload), pad(answer if answer else payload)


def data_loads(length, data_frames, end):
    """The loads of a session's data frames when the node at `end` is measured: its peer counts in two bytes, and it offers zeros."""
    zeros = [0] * length
    for n in range(data_frames):
        count = (low_high(n % 65536) + zeros)[:length]
        yield (zeros, count) if end == "master" else (count, zeros)


def session(length, data_frames, end):
    """The frames of a session, each of the master with the slave's answer."""
    master, slave = Sender(), Sender()
    taken = 0
    yield reset_frame(0, length), reset_frame(0, length)
    exchanges = list(handshake(length))
    exchanges += [(PROCESS_DATA, CONN, *loads) for loads in data_loads(length, data_frames, end)]
    for command, conn, load, answer in exchanges:
        frame, sent = master.seal(taken, conn, command, load)
        answered, taken = slave.seal(sent, conn, command, answer)
        yield frame, answered


HEADERS = {
    "master": f"master {CONN} {ADDRESS} {WATCHDOG} {MASTER_ID}\n",
    "slave": f"slave {ADDRESS} 200 {WATCHDOG} {SLAVE_ID}\nrule any 0\n",
}


HEADERS["pair"] = HEADERS["master"] + HEADERS["slave"]


def header(end, length):
    kind = end if end in ("pair", "trace") else f"node {end}"
    return f"fsoe 1 {kind}\nlengths {length} {length}\n{HEADERS.get(end, '')}go\n"


def image_header(slots, length):
    """Slots of slaves side by side."""
    frame = 6 if length == 1 else 3 + 2 * length
    yield f"fsoe 1 image\nsize {slots * frame} {slots * frame}\n"
    for slot in range(slots):
        yield f"slot {slot + 1} {slot * frame} {slot * frame}\nlengths {length} {length}\n{HEADERS['slave']}"
    yield "go\n"


def frame_lines(end, length, data_frames):
    """The peer's frames. A master's first tick sends the Reset frame that the first of them answers."""
    if end == "master":
        yield "t\n"
    for sent_by_master, sent_by_slave in session(length, data_frames, end):
        frame = sent_by_slave if end == "master" else sent_by_master
        yield f"d {frame.hex()}\n"


def pair_lines(length, frames):
    """The last frame comes to each end in turn, after the master's first tick: those of a handshake, and so many more."""
    yield "tm\n"
    for n in range(2 * (1 + len(list(handshake(length)))) + frames):
        yield "dm -1\n" if n % 2 else "ds -1\n"


def trace_lines(length, data_frames):
    for sent_by_master, sent_by_slave in session(length, data_frames, "slave"):
        yield f"m {sent_by_master.hex()}\ns {sent_by_slave.hex()}\n"


def written_lines(length, data_frames, slots):
    """The master's frames, each written into every slot, with as many bytes as a line takes, and then sampled."""
    for sent_by_master, _ in session(length, data_frames, "slave"):
        image = sent_by_master * slots
        for at in range(0, len(image), 256):
            yield f"w {at} {image[at:at + 256].hex()}\n"
        yield "s\n"


def main(end, what, *numbers):
    if what == "ticks":
        sys.stdout.write(header(end, 2) + "t\n" * int(numbers[0]))
    elif what == "samples":
        sys.stdout.writelines(image_header(64, 2))
        sys.stdout.write("s\n" * int(numbers[0]))
    elif end == "image":
        length, data_frames, slots = map(int, numbers)
        sys.stdout.writelines(image_header(slots, length))
        sys.stdout.writelines(written_lines(length, data_frames, slots))
    elif end == "trace":
        sys.stdout.write(header(end, int(numbers[0])))
        sys.stdout.writelines(trace_lines(*map(int, numbers)))
    else:
        length, data_frames = map(int, numbers)
        sys.stdout.write(header(end, length))
        sys.stdout.writelines(pair_lines(length, data_frames) if end == "pair" else frame_lines(end, length, data_frames))
    sys.stdout.write("end\n")


if __name__ == "__main__":
    main(*sys.argv[1:])
