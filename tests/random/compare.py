"""Plays random lists of packets with corvus and with box.py, on random volumes, and compares every answer and the saved file.

compare.py CORVUS FOLDER LISTS PACKETS
"""
import random
import subprocess
import sys

from box import BL, LOW, SIZES, WSIZES, Box

# (code, modifier or None, result byte), and refusals: each has to come up, so that the comparison is about something
WANTED = {(0x0B, 0x01, r) for r in (0x00, 0x80, 0xFD, 0x8F)} | {(0x0B, 0x11, r) for r in (0x00, 0x80, 0x8F)}
WANTED |= {(0x1B, 0xA0, r) for r in (0x00, 0x0E, 0x8D, 0x8E)} | {(0x1B, 0x80, r) for r in (0x00, 0x0B, 0x0D, 0x0E, 0x0F)}
WANTED |= {(0x1B, 0xC0, r) for r in (0x00, 0x0B, 0x0C, 0x0E, 0x0F)} | {(0x1A, 0x20, r) for r in (0x00, 0x08, 0x09, 0x0C, 0x0E, 0x0F)}
WANTED |= {(0x1A, 0x21, r) for r in (0x00, 0x09, 0x0A, 0x0C, 0x0E, 0x0F)} | {(0x1A, 0x40, r) for r in (0x00, 0x09, 0x0C, 0x0F)}
WANTED |= {(c, None, r) for c in SIZES for r in (0x00, 0x87, 0x8B, 0x8E)}
WANTED |= {(c, None, r) for c in WSIZES for r in (0x00, 0x87, 0x8D, 0x8E)} | {(c, None, 0x8B) for c in WSIZES if WSIZES[c] < 512}
WANTED |= {1, 2, 3, 4}


def random_packet(rng, n):
    name = lambda: rng.choice([b"A" * 8, b"B       ", b"CUES    ", BL, LOW, b"\0" * 8] + [bytes([65 + rng.randrange(40)]) * 8])
    word = lambda v: bytes([v & 255, v >> 8])
    k = rng.choice([0, 1, 2, 3, rng.randrange(256), rng.randrange(8)])
    length = rng.choice([512] * 9 + [511])
    c = rng.randrange(100)
    if c < 12:
        code = rng.choice(list(SIZES))
        s = rng.randrange((n + 3) * 512 // SIZES[code])
        p = bytes([code, (s >> 16) << 4 | rng.choice([1] * 9 + [2]), s & 255, s >> 8 & 255])
    elif c < 24:
        code = rng.choice(list(WSIZES))
        s = rng.randrange((n + 3) * 512 // WSIZES[code])
        p = bytes([code, (s >> 16) << 4 | rng.choice([1] * 9 + [0]), s & 255, s >> 8 & 255]) + bytes([rng.randrange(256)]) * WSIZES[code]
    elif c < 40:
        other = bytes([rng.randrange(256)]) * 8
        p = b"\x0b" + rng.choice([b"\x01"] * 5 + [b"\x11"]) + rng.choice([name(), other])
    elif c < 41 and rng.randrange(4) == 0:
        p = b"\x1a\x10\0\0\0"
    elif c < 48:
        p = b"\x1a\x41" + bytes([rng.choice([0, 1, 2, 3, 4])]) + b"\0\0"
    elif c < 50:
        p = b"\x1b\xa0" + word(rng.choice([0, 3, 5, 32760])) + word(rng.choice([0, 1, 9, 12, n])) + bytes(4)
    elif c < 62:
        p = b"\x1b\x80" + name()
    elif c < 70:
        p = b"\x1b\xc0" + name()
    elif c < 78:
        p = b"\x1a\x20" + bytes([k]) + word(length)
    elif c < 90:
        p = b"\x1a\x21" + bytes([k]) + word(length) + bytes([rng.randrange(256)]) * 512
    elif c < 96:
        p = b"\x1a\x40" + bytes([k]) + b"\0\0"
    else:
        p = bytes(rng.randrange(256) for _ in range(rng.randrange(12)))
    if rng.randrange(60) == 0:
        p = p[:rng.randrange(len(p) + 1)] if rng.randrange(2) else p + b"\0"
    return p


def image(rng, n):
    lost = [rng.randrange(6) == 0 for _ in range(n)]
    data = [bytes([rng.randrange(256)]) * 512 for _ in range(n)]
    head = b"".join(v.to_bytes(4, "big") for v in (n, 16, 16 + n, 16 + n + 512 * n))
    return head + bytes(rng.randrange(1, 256) if l else 0 for l in lost) + b"".join(data), [None if l else d for l, d in zip(lost, data)]


def seen_of(packet, answer):
    if isinstance(answer, int):
        return answer
    code = packet[0]
    modifier = packet[1] if code in (0x0B, 0x1A, 0x1B) and len(packet) > 1 else None
    result = answer[1] if len(answer) in (12, 516) else answer[0]
    return code, modifier, result


def scenario_of(rng, packets, seen):
    """The lines of a scenario, the image's bytes, its kind, the box that was played, and the expected output."""
    n = rng.choice([8, 20, 40])
    image_bytes, blocks = image(rng, n)
    kind = rng.choice(["work", "work", "work", "shelf", "bank"])
    if kind == "bank":
        blocks = [image_bytes[512 * i:512 * i + 512] for i in range(len(image_bytes) // 1024 * 2)]
    lines, first = ["volume %s i.img" % kind], 0
    if rng.randrange(3) == 0:
        first = 2
        lines.append("window 2 %d %d" % (len(blocks) - 4, len(blocks)))
        blocks = blocks[2:-2]
    box, expected = Box(blocks, kind != "shelf"), []
    for _ in range(packets):
        packet = random_packet(rng, n)
        room = rng.choice([1025] * 30 + [1024, 2000]) if packet else 1025
        lines.append("packet %d %s" % (room, packet.hex()) if packet else "packet")
        answer = box.serve(packet, room)
        seen.add(seen_of(packet, answer))
        expected.append("refused %d" % answer if isinstance(answer, int) else "reply " + answer.hex())
    return lines, image_bytes, kind, first, box, expected


def is_saved(after, kind, n, block):
    """Does the file hold block n as the box has it?"""
    if kind == "bank":
        return after[512 * n:512 * n + 512] == block
    total = int.from_bytes(after[0:4], "big")
    if block is None:
        return after[16 + n] != 0
    return after[16 + n] == 0 and after[16 + total + 512 * n:][:512] == block


def compare(corvus, folder, seed, packets, seen):
    lines, image_bytes, kind, first, box, expected = scenario_of(random.Random(seed), packets, seen)
    with open(folder + "/i.img", "wb") as f:
        f.write(image_bytes)
    with open(folder + "/s.scenario", "w") as f:
        f.write("\n".join(lines) + "\n")
    got = subprocess.run([corvus, "run", "--save", folder + "/s.scenario"], capture_output=True, text=True)
    out = got.stdout.splitlines()
    for i, (found, wanted) in enumerate(zip(out, expected)):
        if found != wanted:
            return "list %d, packet %d: corvus %s, here %s" % (seed, i, found[:80], wanted[:80])
    if len(out) != len(expected) or got.returncode:
        return "list %d: %d answers of %d; %s" % (seed, len(out), len(expected), got.stderr[:200])
    with open(folder + "/i.img", "rb") as f:
        after = f.read()
    if kind == "shelf":
        return None if after == image_bytes else "list %d: a shelf image has changed" % seed
    for i, block in enumerate(box.blocks):
        if not is_saved(after, kind, first + i, block):
            return "list %d: block %d of the file is another one" % (seed, first + i)
    return None


def main():
    corvus, folder, lists, packets = sys.argv[1], sys.argv[2], int(sys.argv[3]), int(sys.argv[4])
    seen = set()
    for seed in range(lists):
        fault = compare(corvus, folder, seed, packets, seen)
        if fault:
            sys.exit(fault)
    if not WANTED <= seen:
        sys.exit("these never came up: %s" % sorted(map(str, WANTED - seen)))
    print("%d random lists of %d packets agree" % (lists, packets))


main()
