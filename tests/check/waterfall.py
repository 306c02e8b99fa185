#!/usr/bin/env python3
"""What tests/waterfall reads with a second pair of eyes.

    waterfall.py lists KIT KIND SEED   the kit text has the mixed or random lists of the seed, made here by their definition; prints its stall patterns
    waterfall.py csv FILE              every line has all fields, and its rates follow from its counts
    waterfall.py svg FILE CURVES       well-formed, a mark for each curve, and no two labels overlap

Ends with 1 and a sentence if not.
"""
import itertools
import math
import sys
import xml.etree.ElementTree as ET


def ensure(condition, words):
    if not condition:
        sys.exit(f"tests/check/waterfall.py {' '.join(sys.argv[1:])}: {words}")


# ---- Lists ----

class Load:
    """The generator of the test load."""

    def __init__(self, seed):
        self.state = seed

    def bit(self):
        self.state = (self.state * 1664525 + 1013904223) % 2**32
        return self.state >> 31

    def draw(self):
        return int("".join(str(self.bit()) for _ in range(16)), 2)

    def shuffled(self, n):
        numbers = list(range(n))
        for i in reversed(range(1, n)):
            j = self.draw() % (i + 1)
            numbers[i], numbers[j] = numbers[j], numbers[i]
        return numbers


def mixed(load, size, r, shift):
    listed = {}
    for c in range(size):
        pi = load.shuffled(r)
        for a, j in itertools.product(range(size), range(r)):
            if (a + shift + j) % size == c:
                listed[j * size + a] = pi[j] * size + c
    return [listed[p] for p in range(size * r)]


def lists(path, kind, seed):
    lines = open(path).read().split("\n")
    m, t, size = map(int, lines[1].split())
    r, load = m * t, Load(int(seed))
    order = size * r
    stored = [tuple(map(int, line.split())) for line in lines[3 : 3 + order]]
    if kind == "mixed":
        own, parity = mixed(load, size, r, 0), mixed(load, size, r, r)
    else:
        own, parity = load.shuffled(order), load.shuffled(order)
    ensure(stored == list(zip(range(order), own, parity)), "other lists")
    stalls = 0
    for a in range(size):
        columns = [listed[j * size + a] % size for listed in (own, parity) for j in range(r)]
        stalls += sum(math.comb(columns.count(c) + 1, t + 1) for c in range(size))
    print(stalls)


# ---- CSV ----

def table(path):
    text = open(path).read()
    ensure(text.endswith("\n"), "the last line is cut off")
    rows = [line.split(",") for line in text.splitlines()]
    ensure(all(len(row) == len(rows[0]) == 31 for row in rows), "a line has too few or too many fields")
    return [dict(zip(rows[0], row)) for row in rows[1:]]


def csv(path):
    rows = table(path)
    ensure(rows, "no point")
    for row in rows:
        count = {name: int(row[name]) for name in list(row)[12:24]}
        n, bad, z = count["frames"], count["bad_frames"], 1.959963985
        p = bad / n
        middle, half = p + z * z / 2 / n, z * math.sqrt(p * (1 - p) / n + z * z / 4 / n / n)
        low, high = (0 if bad == 0 else (middle - half) / (1 + z * z / n)), (1 if bad == n else (middle + half) / (1 + z * z / n))
        derived = {
            "frame_error_rate": p,
            "frame_low": low,
            "frame_high": high,
            "block_error_rate": count["bad_blocks"] / count["counted_blocks"],
            "bit_error_rate": count["wrong_bits"] / count["bits"],
            "line_error_rate": count["line_errors"] / count["line_bits"],
        }
        for name, value in derived.items():
            ensure(row[name] == f"{value:.3e}", f"{name} is {row[name]}, not {value:.3e}")
        ensure(row["rounds_per_frame"] == f"{count['rounds_made'] / n:.3f}", "rounds_per_frame")
        ensure(count["counted_blocks"] % n == 0 and count["bits"] % n == 0 and count["line_bits"] % n == 0, "frames of different lengths")
        ensure(bad <= count["bad_blocks"] <= count["wrong_bits"] and count["last_block_alone"] <= bad, "more blocks than bits are wrong")
        ensure(count["bad_blocks"] ** 2 <= n * count["bad_blocks_squared"] and count["wrong_bits"] ** 2 <= n * count["wrong_bits_squared"], "squares")
        rate, sent = float(row["rate"]), count["line_bits"]
        ensure(abs(count["line_errors"] - rate * sent) < 5 * math.sqrt(rate * sent), f"the line turned {count['line_errors']} of {sent} bits at {rate}")


# ---- SVG ----

def svg(path, curves):
    root = ET.parse(path).getroot()
    space = "{http://www.w3.org/2000/svg}"
    _, _, wide, high = map(float, root.get("viewBox").split())
    boxes = []
    for text in root.iter(space + "text"):
        size = float(text.get("font-size", root.get("font-size")))
        length = 0.54 * size * len(text.text)
        left = float(text.get("x")) - {"start": 0, "middle": length / 2, "end": length}[text.get("text-anchor", "start")]
        boxes.append((left, float(text.get("y")) - 0.8 * size, left + length, float(text.get("y")) + 0.2 * size, text.text))
    ensure(len(boxes) > 10, "few labels")
    for one in boxes:
        ensure(0 <= one[0] and one[2] <= wide and 0 <= one[1] and one[3] <= high, f"'{one[4]}' is outside the picture")
    for one, two in itertools.combinations(boxes, 2):
        apart = one[2] < two[0] or two[2] < one[0] or one[3] < two[1] or two[3] < one[1]
        ensure(apart, f"'{one[4]}' and '{two[4]}' overlap")
    labels = [box for box in boxes if "frames" in box[4] or "window of" in box[4]]
    ensure(len(labels) == int(curves), f"{len(labels)} curves are named")
    ensure(root.find(f".//{space}g/{space}title") is not None, "no point")


{"lists": lists, "csv": csv, "svg": svg}[sys.argv[1]](*sys.argv[2:])
