"""The examples under examples/, made by the independent reading of document 01 in tests/check/second_kit.py.

A folder has lists.txt, and kit.txt, which `makekit` prints for it; blocks.txt, and groups.txt, which `frame` prints for kit.txt and blocks.txt;
received.txt, a damaged copy of both texts, and mended.txt, which `mend` prints for it. W is found by elimination, and A W is made to see that it is right.

    python3 tests/check/examples.py           writes the files
    python3 tests/check/examples.py --check   exits 0 exactly when each file has these bytes
"""
import os
import sys

from second_kit import Design, Frame, decode, encode, identity, inverse, multiply, system, turn

FOLDER = os.path.join(os.path.dirname(os.path.abspath(__file__)), "..", "..", "examples")


def bits(values):
    return "".join(map(str, values))


def table(names, rows):
    return "".join(" ".join(map(str, row)) + "\n" for row in [names.split(), *rows])


def list_text(m, t, M, lists):
    return table("m t M", [(m, t, M)]) + table("place self parity", [(p, *pair) for p, pair in enumerate(zip(*lists))])


def inverse_text(W):
    return table("row inverse", [(i, bits(row)) for i, row in enumerate(W)])


def block_text(frame):
    area, information = frame.design.M ** 2, frame.information()
    return table("block bits", [(b + 1, bits(information[b * area:(b + 1) * area])) for b in range(frame.L)])


def group_text(frame):
    order, redundancy = frame.design.M * frame.design.r, frame.redundancy()
    parts = [bits(redundancy[k:k + order]) for k in range(0, len(redundancy), order)]
    return table("group self parity", [(i, parts[2 * i - 2], parts[2 * i - 1]) for i in frame.groups])


def example(m, t, M, lists, information, wrong):
    """A kit, a frame of this information, and its copy with the bits at the places `wrong` turned (redundancy counts on)."""
    design = Design(m, t, M)
    A = system(design, lists)
    W = inverse(A)
    assert multiply(A, W) == identity(M * design.r)
    frame = Frame(design, lists, len(information) // M ** 2)
    frame.load(information + frame.redundancy())
    encode(frame, W)
    yield "lists.txt", list_text(m, t, M, lists)
    yield "kit.txt", list_text(m, t, M, lists) + inverse_text(W)
    yield "blocks.txt", block_text(frame)
    yield "groups.txt", group_text(frame)
    frame.load(turn(frame.information() + frame.redundancy(), wrong))
    yield "received.txt", block_text(frame) + group_text(frame)
    counts = decode(frame, 0)
    yield "mended.txt", block_text(frame) + group_text(frame) + table("rounds turned outside", [counts[:3]])


def examples():
    # Document 01's kit K and its four blocks, with one wrong bit in P of group 1.
    yield "k", example(4, 1, 1, ((1, 0, 2, 3), (3, 0, 1, 2)), [0, 1, 0, 0], [4 + 7])
    # Two errors a word, M = 2, an odd number of blocks; wrong bits in two blocks, in Y and in P.
    lists = ((18, 7, 14, 1, 17, 12, 0, 4, 15, 11, 2, 3, 13, 16, 8, 6, 10, 9, 19, 5),
             (8, 6, 11, 16, 14, 17, 3, 15, 19, 12, 7, 13, 5, 4, 1, 18, 0, 9, 10, 2))
    yield "two", example(5, 2, 2, lists, [1, 0, 1, 1, 0, 1, 1, 0, 0, 0, 1, 0], [1, 7, 12 + 3, 12 + 24, 12 + 46])


    # The smallest m for M = 5 and two errors a word: 50 rows, which are no whole number of bytes. Wrong bits in all blocks and in both groups.
    lists = ((24, 33, 49, 35, 6, 15, 4, 22, 9, 29, 34, 21, 18, 39, 26, 20, 7, 43, 17, 47, 30, 40, 12, 36, 14,
              11, 0, 1, 31, 8, 44, 28, 46, 32, 25, 27, 45, 37, 2, 41, 13, 38, 16, 19, 42, 10, 23, 48, 5, 3),
             (0, 39, 20, 3, 1, 26, 2, 6, 16, 19, 13, 24, 27, 12, 4, 9, 21, 8, 5, 42, 7, 38, 35, 41, 36,
              44, 18, 11, 14, 30, 43, 40, 45, 34, 32, 46, 17, 31, 15, 48, 29, 25, 10, 28, 49, 22, 37, 23, 33, 47))
    information = [0, 1, 1, 0, 1, 1, 0, 0, 1, 0, 1, 1, 1, 0, 0, 0, 0, 1, 0, 1, 1, 0, 1, 1, 0,
                   1, 1, 0, 1, 0, 0, 0, 1, 1, 1, 0, 1, 0, 0, 1, 1, 0, 1, 0, 0, 0, 1, 1, 0, 0,
                   0, 0, 1, 0, 1, 1, 1, 1, 0, 1, 0, 1, 0, 1, 1, 1, 0, 0, 0, 1, 1, 1, 0, 1, 0]
    yield "five", example(5, 2, 5, lists, information, [3, 8, 30, 41, 52, 66, 75 + 4, 75 + 61, 75 + 77, 75 + 112, 75 + 188])


def main(arguments):
    wrong = 0
    for name, files in examples():
        for file, text in files:
            path = os.path.join(FOLDER, name, file)
            if arguments == ["--check"]:
                with open(path, encoding="ascii", newline="") as found:
                    if found.read() != text:
                        print(f"examples/{name}/{file} is not the one of the independent reading")
                        wrong += 1
            else:
                os.makedirs(os.path.dirname(path), exist_ok=True)
                with open(path, "w", encoding="ascii", newline="") as out:
                    out.write(text)
    return 1 if wrong else 0


if __name__ == "__main__":
    sys.exit(main(sys.argv[1:]))
