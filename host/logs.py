"""The records of an access log, as bytes: document 01, "The access log", and document 02, request 2026-02."""


def record(*body):
    return bytes([len(body) >> 8, len(body) & 255, *body])


def write(addr, *values):
    """Writes from an address on."""
    return b"".join(record(1, (addr + i) >> 8, (addr + i) & 255, value) for i, value in enumerate(values))


def read(*addrs):
    return b"".join(record(2, addr >> 8, addr & 255) for addr in addrs)


def clocks(count, divider=0, double=0, phase=None):
    """With a phase a record of version 2."""
    return record(3, double, divider, *([] if phase is None else [phase]), count >> 8, count & 255)


def falls(count, double=0):
    """The divider's bit falls so many times: so many steps of the sequencer."""
    return (clocks(1 + double, 0x20 if double else 0x10, double) + clocks(1 + double, 0, double)) * count


PCM = record(4)
