"""The frame rules of docs/RULES.md once more, as plain Python, to hold `dissect` against.

It shares no code with the crates. `dissected(text)` is what `dissect` prints for that input.
"""

NAMES = {0: 'NOP', 1: 'APRD', 2: 'APWR', 3: 'APRW', 4: 'FPRD', 5: 'FPWR', 6: 'FPRW', 7: 'BRD',
         8: 'BWR', 10: 'LRD', 11: 'LWR', 12: 'LRW'}
DIGITS = '0123456789abcdefABCDEF'


class Refused(Exception):
    def __init__(self, number, place, words):
        super().__init__(f'refused {number} {place}: {words}')


def two(b, i):
    return b[i] | b[i + 1] << 8


def datagrams(frame):
    """The datagrams of a frame, as dictionaries, or Refused."""
    if not 60 <= len(frame) <= 1514:
        raise Refused(1, 0, f'the frame has {len(frame)} bytes; it may have 60 to 1514')
    if frame[12:14] != b'\x88\xa4':
        raise Refused(2, 12, f'the EtherType is {frame[12:14].hex()}, not 88a4')
    header = two(frame, 14)
    if header >> 11 & 1 or header >> 12 != 1:
        raise Refused(2, 14, f'the EtherCAT header is {header:04x}; bit 11 has to be 0 and the type 1')
    end = 16 + (header & 0x7ff)
    if end == 16:
        raise Refused(3, 16, 'the frame has no datagram')
    found = []
    at = 16
    while True:
        there = min(end, len(frame)) - at
        if there < 10:
            raise Refused(3, at, 'the datagram passes the end of the datagrams or of the frame')
        size = two(frame, at + 6)
        n = size & 0x7ff
        if not 1 <= n <= 1486:
            raise Refused(3, at, f'the datagram has {n} bytes of data; it may have 1 to 1486')
        if size >> 11 & 15:
            raise Refused(3, at, 'the reserved bits 11 to 14 beside the length are not 0')
        if there < n + 12:
            raise Refused(3, at, 'the datagram passes the end of the datagrams or of the frame')
        if (size >> 15 == 1) != (at + n + 12 < end):
            raise Refused(3, at, 'bit 15 beside the length says wrongly whether another datagram follows')
        if frame[at] not in NAMES:
            raise Refused(4, at, f'command {frame[at]} is not listed')
        found.append(dict(at=at, command=frame[at], index=frame[at + 1], adp=two(frame, at + 2),
                          ado=two(frame, at + 4), irq=two(frame, at + 8),
                          data=bytes(frame[at + 10:at + 10 + n]), counter=two(frame, at + 10 + n)))
        at += n + 12
        if at == end:
            return found


def line(d):
    low, high = d['adp'], d['ado']
    address = f'{high << 16 | low:08x}' if d['command'] in (10, 11, 12) else f'{low:04x}:{high:04x}'
    return (f"at {d['at']} {NAMES[d['command']]} {address} index {d['index']:02x} irq {d['irq']:04x} "
            f"data {d['data'].hex()} counter {d['counter']}")


def dissected(text):
    out = []
    for number, row in enumerate(text.split('\n'), 1):
        digits = ''.join(c for c in row.split('#')[0] if c not in ' \t\r')
        if not digits:
            continue
        if any(c not in DIGITS for c in digits):
            out.append(f'line {number}: a frame in hex has digits and blanks alone')
        elif len(digits) % 2:
            out.append(f'line {number}: the number of digits is odd')
        else:
            try:
                out += [line(d) for d in datagrams(bytes.fromhex(digits))]
            except Refused as e:
                out.append(str(e))
    return ''.join(s + '\n' for s in out)


def written(found):
    """The frame of these datagrams, by the format."""
    area = b''
    for i, d in enumerate(found):
        more = i + 1 < len(found)
        area += (bytes([d['command'], d['index']]) + d['adp'].to_bytes(2, 'little') + d['ado'].to_bytes(2, 'little')
                 + (len(d['data']) | more << 15).to_bytes(2, 'little') + d['irq'].to_bytes(2, 'little')
                 + d['data'] + d['counter'].to_bytes(2, 'little'))
    frame = bytes.fromhex('ffffffffffff02000000000188a4') + (len(area) | 1 << 12).to_bytes(2, 'little') + area
    return frame + bytes(max(0, 60 - len(frame)))


def rewritten(text):
    """What `rewrite` prints."""
    out = []
    for number, row in enumerate(text.split('\n'), 1):
        digits = ''.join(c for c in row.split('#')[0] if c not in ' \t\r')
        if not digits:
            continue
        if any(c not in DIGITS for c in digits):
            out.append(f'line {number}: a frame in hex has digits and blanks alone')
        elif len(digits) % 2:
            out.append(f'line {number}: the number of digits is odd')
        else:
            try:
                out.append(written(datagrams(bytes.fromhex(digits))).hex())
            except Refused as e:
                out.append(str(e))
    return ''.join(s + '\n' for s in out)
