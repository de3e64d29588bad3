"""The controller once more, in another language, written from docs/commands.md and docs/packets.md alone."""

BL = b" " * 8
LOW, HIGH = b"WOOFWOOF", b"FOOWFOOW"
SIZES = {0x12: 128, 0x02: 256, 0x22: 256, 0x32: 512}
WSIZES = {0x13: 128, 0x03: 256, 0x23: 256, 0x33: 512}
LENGTHS = {(0x0B, 0x01): 10, (0x0B, 0x11): 10, (0x1A, 0x10): 5, (0x1A, 0x20): 5, (0x1A, 0x21): 517, (0x1A, 0x40): 5,
           (0x1A, 0x41): 5, (0x1B, 0x80): 10, (0x1B, 0xA0): 10, (0x1B, 0xC0): 10}


class Pipe:
    def __init__(self, number, name, start):
        self.number, self.name, self.start, self.end, self.mode = number, name, start, start, "w"

    def state(self):
        return (0x80 if self.start < self.end else 0) | {"w": 1, "r": 2, "": 0}[self.mode]


class Box:
    def __init__(self, blocks, writable=True):
        self.blocks, self.writable = blocks, writable      # None: lost
        self.sem = [BL] * 32
        self.area, self.pipes = None, []

    def serve(self, packet, room=1025):
        if room < 1025:
            return 1
        if not packet:
            return 2
        code = packet[0]
        if code in SIZES or code in WSIZES:
            want = 4 + WSIZES.get(code, 0)
            if len(packet) != want:
                return 4
            return self.sector(packet)
        if code not in (0x0B, 0x1A, 0x1B):
            return b"\x8f"
        if len(packet) < 2:
            return 3
        key = (code, packet[1])
        if key not in LENGTHS:
            return b"\x8f"
        if len(packet) != LENGTHS[key]:
            return 4
        if key == (0x1A, 0x41) and packet[2] > 3:
            return b"\x8f"
        return getattr(self, "c_%02x_%02x" % key)(packet)

    def sector(self, p):
        drive, number = p[1] & 15, (p[1] >> 4) << 16 | p[3] << 8 | p[2]
        reads = p[0] in SIZES
        size = SIZES[p[0]] if reads else WSIZES[p[0]]
        n, part = divmod(number, 512 // size)
        if drive != 1:
            return b"\x87"
        if n >= len(self.blocks):
            return b"\x8e"
        if not reads:
            if not self.writable or (self.area and self.area[0] <= n < sum(self.area)):
                return b"\x8d"
        block = self.blocks[n]
        if block is None and (reads or size < 512):
            return b"\x8b"
        if reads:
            return b"\0" + block[part * size:(part + 1) * size]
        block = bytearray(block or bytes(512))
        block[part * size:(part + 1) * size] = p[4:]
        self.blocks[n] = bytes(block)
        return b"\0"

    def c_0b_01(self, p):
        name = p[2:]
        if name == BL:
            return b"\x8f"
        if name in self.sem:
            r = 0x80
        elif BL not in self.sem:
            r = 0xFD
        else:
            self.sem[self.sem.index(BL)] = name
            r = 0
        return bytes([0, r]) + bytes(10)

    def c_0b_11(self, p):
        name = p[2:]
        if name == BL:
            return b"\x8f"
        r = 0
        if name in self.sem:
            self.sem[self.sem.index(name)] = BL
            r = 0x80
        return bytes([0, r]) + bytes(10)

    def c_1a_10(self, p):
        self.sem = [BL] * 32
        return b"\0"

    def c_1a_41(self, p):
        names = b"".join([BL] * 64)
        pointers = bytes(512)
        if self.area:
            t = {0: LOW, 63: HIGH}
            t.update({q.number: q.name for q in self.pipes})
            names = b"".join(t.get(k, BL) for k in range(64))
            rows = [(0, self.area[0], self.area[0], 0x80)] + [(q.number, q.start, q.end, q.state()) for q in self.pipes]
            rows.append((63, sum(self.area), sum(self.area), 0x80))
            pointers = b"".join(bytes([k]) + (s * 512).to_bytes(3, "big") + (e * 512).to_bytes(3, "big") + bytes([st])
                                for k, s, e, st in rows).ljust(512, b"\0")
        return b"\0" + [names + pointers, names, pointers, b"".join(self.sem)][p[2]]

    @staticmethod
    def result(r, number=0, state=0):
        return bytes([0, r, number, state]) + bytes(8)

    def c_1b_a0(self, p):
        first, length = p[2] | p[3] << 8, p[4] | p[5] << 8
        if not self.writable:
            return b"\x8d"
        if length < 1 or first + length >= 32768:
            return self.result(0x0E)
        if first + length > len(self.blocks):
            return b"\x8e"
        self.area, self.pipes = (first, length), []
        return self.result(0)

    def c_1b_80(self, p):
        name = p[2:]
        if not self.area:
            return self.result(0x0F)
        if name in (BL, LOW, HIGH):
            return self.result(0x0E)
        if any(q.name == name and q.mode == "w" for q in self.pipes):
            return self.result(0x0B)
        free = [k for k in range(1, 63) if k not in [q.number for q in self.pipes]]
        best = None
        for i in range(len(self.pipes) + 1):
            below = self.pipes[i - 1] if i else None
            low = below.end if below else self.area[0]
            high = self.pipes[i].start if i < len(self.pipes) else sum(self.area)
            keep = (high - low + 1) // 2 if below and below.mode == "w" else 0
            gives = high - low - keep
            if gives > 0 and (best is None or gives > best[0]):
                best = (gives, i, low + keep)
        if not free or best is None:
            return self.result(0x0D)
        pipe = Pipe(free[0], name, best[2])
        self.pipes.insert(best[1], pipe)
        return self.result(0, pipe.number, pipe.state())

    def c_1b_c0(self, p):
        name = p[2:]
        if not self.area:
            return self.result(0x0F)
        if name in (BL, LOW, HIGH):
            return self.result(0x0E)
        of = [q for q in self.pipes if q.name == name]
        if not of:
            return self.result(0x0C)
        closed = [q for q in of if q.mode == ""]
        if not closed:
            return self.result(0x0B)
        pipe = min(closed, key=lambda q: q.number)
        pipe.mode = "r"
        return self.result(0, pipe.number, pipe.state())

    def pipe(self, k):
        return next((q for q in self.pipes if q.number == k), None)

    def c_1a_20(self, p):
        no = lambda r: bytes([0, r]) + bytes(514)
        if not self.area:
            return no(0x0F)
        q = self.pipe(p[2])
        if not q:
            return no(0x0C)
        if q.mode != "r":
            return no(0x09)
        if p[3] | p[4] << 8 != 512:
            return no(0x0E)
        if q.start >= q.end:
            return no(0x08)
        block = self.blocks[q.start]
        q.start += 1
        return b"\0\0\0\x02" + block

    def c_1a_21(self, p):
        if not self.area:
            return self.result(0x0F)
        q = self.pipe(p[2])
        if not q:
            return self.result(0x0C)
        if q.mode != "w":
            return self.result(0x09)
        if p[3] | p[4] << 8 != 512:
            return self.result(0x0E)
        i = self.pipes.index(q)
        top = self.pipes[i + 1].start if i + 1 < len(self.pipes) else sum(self.area)
        if q.end >= top:
            return self.result(0x0A)
        self.blocks[q.end] = p[5:]
        q.end += 1
        return self.result(0)

    def c_1a_40(self, p):
        if not self.area:
            return self.result(0x0F)
        q = self.pipe(p[2])
        if not q:
            return self.result(0x0C)
        if q.mode == "":
            return self.result(0x09)
        q.mode = ""
        if q.start == q.end:
            self.pipes.remove(q)
        return self.result(0)
