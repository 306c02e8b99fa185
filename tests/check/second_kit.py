"""Document 01 read literally, with document 02's stuck words, line errors and twelve rounds by default: the values of crates/staircase/specs/SecondKit.antt.

Blocks, X, Q, Y and P are matrices, lists of rows. Y and P are made as document 01 says: a list is applied to X or Q, and the outcome is
transposed. A is read off one unit vector after the other, W is found by elimination, and a word is corrected by trying all changes.
Nothing is taken from the crates. Document 01's own rows under K are asserted first.

    python3 tests/check/second_kit.py                prints the values, a definition a line
    python3 tests/check/second_kit.py --check FILE   exits 0 exactly when each of these lines stands in FILE
"""
import sys
from itertools import combinations

FIELD_POLYNOMIAL = {4: 0x13, 5: 0x25}


# ---- Polynomials over GF(2) as numbers, bit i for x^i

def product(p, q):
    total = 0
    for i in range(q.bit_length()):
        if q >> i & 1:
            total ^= p << i
    return total


def remainder(p, g):
    while p.bit_length() >= g.bit_length():
        p ^= g << (p.bit_length() - g.bit_length())
    return p


# ---- Matrices of bits

def zeros(rows, columns):
    return [[0] * columns for _ in range(rows)]


def identity(size):
    return [[int(i == j) for j in range(size)] for i in range(size)]


def transpose(matrix):
    return [list(column) for column in zip(*matrix)]


def add(left, right):
    return [[a ^ b for a, b in zip(*rows)] for rows in zip(left, right)]


def multiply(left, right):
    return [[sum(a * b for a, b in zip(row, column)) % 2 for column in transpose(right)] for row in left]


def inverse(matrix):
    size = len(matrix)
    rows = [row + unit for row, unit in zip(matrix, identity(size))]
    for j in range(size):
        pivot = next(i for i in range(j, size) if rows[i][j])
        rows[j], rows[pivot] = rows[pivot], rows[j]
        for i in range(size):
            if i != j and rows[i][j]:
                rows[i] = [a ^ b for a, b in zip(rows[i], rows[j])]
    return [row[size:] for row in rows]


# ---- "Design and BCH words"

def minimal_polynomial(m, i):
    """Of power i of the root: the product of x + c over its conjugates c."""
    def times(a, b):
        return remainder(product(a, b), FIELD_POLYNOMIAL[m])

    c = 1
    for _ in range(i):
        c = times(c, 2)
    conjugates = []
    while c not in conjugates:
        conjugates.append(c)
        c = times(c, c)
    coefficients = [1]  # in the field, that of x^0 first
    for c in conjugates:
        coefficients = [a ^ b for a, b in zip([0] + coefficients, [times(c, a) for a in coefficients] + [0])]
    assert set(coefficients) <= {0, 1}
    return sum(a << j for j, a in enumerate(coefficients))


class Design:
    def __init__(self, m, t, M):
        self.t, self.M, self.r = t, M, m * t
        self.generator = 1
        for i in range(1, 2 * t, 2):
            self.generator = product(self.generator, minimal_polynomial(m, i))

    def remainder(self, word):
        """Position j of an n-bit word carries x^(n-1-j)."""
        return remainder(sum(bit << (len(word) - 1 - j) for j, bit in enumerate(word)), self.generator)

    def parity(self, information):
        p = self.remainder(information + [0] * self.r)
        return [p >> (self.r - 1 - j) & 1 for j in range(self.r)]

    def changes(self, word):
        """The positions at which the codeword within t changes differs from a word; None where there is no such codeword."""
        found = [positions for count in range(self.t + 1) for positions in combinations(range(len(word)), count)
                 if self.remainder(turn(word, positions)) == 0]
        assert len(found) <= 1
        return found[0] if found else None


def turn(bits, positions):
    return [bit ^ (j in positions) for j, bit in enumerate(bits)]


# ---- "Frame"

def apply(places, matrix):
    """A list sends the bit at place p to place list[p]; row a, column b has place b * M + a."""
    M = len(matrix)
    moved = zeros(M, len(matrix[0]))
    for p, q in enumerate(places):
        moved[q % M][q // M] = matrix[p % M][p // M]
    return moved


def undo(places, moved):
    """The matrix to which a list was applied."""
    return apply([places.index(q) for q in range(len(places))], moved)


class Frame:
    """Blocks B[0] to B[L + 1], of which B[1] to B[L] are sent, and Y[i] and P[i] of the groups i from 1 to G."""

    def __init__(self, design, lists, L):
        self.design, self.lists, self.L = design, lists, L
        self.groups = range(1, (L + 1) // 2 + 1)
        self.B = [zeros(design.M, design.M) for _ in range(L + 2)]
        self.Y = {i: zeros(design.r, design.M) for i in self.groups}
        self.P = {i: zeros(design.r, design.M) for i in self.groups}

    # The buffers: each matrix row by row, in order of blocks or groups.
    def information(self):
        return [bit for block in self.B[1:self.L + 1] for row in block for bit in row]

    def redundancy(self):
        return [bit for i in self.groups for row in self.Y[i] + self.P[i] for bit in row]

    def load(self, buffers):
        bits = iter(buffers)
        for b in range(1, self.L + 1):
            self.B[b] = [[next(bits) for _ in row] for row in self.B[b]]
        for i in self.groups:
            self.Y[i] = [[next(bits) for _ in row] for row in self.Y[i]]
            self.P[i] = [[next(bits) for _ in row] for row in self.P[i]]

    # Row a of these four matrices, one after the other, is row word a of group i ..
    def rows(self, i):
        self_list, parity_list = self.lists
        return [self.B[2 * i - 2], self.B[2 * i - 1], undo(self_list, transpose(self.Y[i])), undo(parity_list, transpose(self.P[i]))]

    def set_rows(self, i, matrices):
        self_list, parity_list = self.lists
        self.B[2 * i - 2], self.B[2 * i - 1], X, Q = matrices
        self.Y[i], self.P[i] = transpose(apply(self_list, X)), transpose(apply(parity_list, Q))

    # .. and row a of these is column word a.
    def columns(self, i):
        return [transpose(self.B[2 * i - 1]), transpose(self.B[2 * i]), transpose(self.Y[i]), transpose(self.P[i])]

    def set_columns(self, i, matrices):
        self.B[2 * i - 1], self.B[2 * i], self.Y[i], self.P[i] = [transpose(matrix) for matrix in matrices]

    # The positions of these words in blocks that are not sent.
    def unsent_in_rows(self, i):
        return range(self.design.M) if i == 1 else []

    def unsent_in_columns(self, i):
        return range(self.design.M, 2 * self.design.M) if 2 * i > self.L else []

    def outside(self):
        words = [word(matrices, a) for i in self.groups for matrices in (self.rows(i), self.columns(i)) for a in range(self.design.M)]
        return sum(self.design.remainder(bits) != 0 for bits in words)


def word(matrices, a):
    return [bit for matrix in matrices for bit in matrix[a]]


def with_word(matrices, a, bits):
    bits = iter(bits)
    return [[[next(bits) for _ in row] if a == b else row for b, row in enumerate(matrix)] for matrix in matrices]


# ---- "System and kit"

def stack(matrix):
    """Column by column."""
    return [bit for column in transpose(matrix) for bit in column]


def unstack(design, y):
    return transpose([y[b * design.r:(b + 1) * design.r] for b in range(design.M)])


def column_parity(design, odd, even, Y):
    return transpose([design.parity(b1 + b2 + y) for b1, b2, y in zip(transpose(odd), transpose(even), transpose(Y))])


def residual(design, lists, before, odd, even, Y):
    """A y + c."""
    self_list, parity_list = lists
    X = undo(self_list, transpose(Y))
    Q = [design.parity(b0 + b1 + x) for b0, b1, x in zip(before, odd, X)]
    return stack(add(column_parity(design, odd, even, Y), transpose(apply(parity_list, Q))))


def system(design, lists):
    zero = zeros(design.M, design.M)
    return transpose([residual(design, lists, zero, zero, zero, unstack(design, unit)) for unit in identity(design.M * design.r)])


def encode(frame, W):
    design = frame.design
    for i in frame.groups:
        before, odd, even = frame.B[2 * i - 2:2 * i + 1]
        c = residual(design, frame.lists, before, odd, even, zeros(design.r, design.M))
        frame.Y[i] = unstack(design, stack(multiply(W, transpose([c]))))
        frame.P[i] = column_parity(design, odd, even, frame.Y[i])
    assert frame.outside() == 0


# ---- "Decoder"

def correction(design, bits, unsent):
    """The positions that correcting a word turns."""
    positions = design.changes(bits) or ()
    return () if any(j in unsent for j in positions) else positions


def is_stuck(design, bits, unsent):
    """Document 02, "Clean, mended or stuck": no codeword, and no codeword within t changes that touches sent bits only."""
    positions = design.changes(bits)
    return positions is None or any(j in unsent for j in positions)


def decode(frame, rounds):
    """Rounds made, sent bits in which the frame differs from the copy, words outside the code at the end, stuck words of the last round made."""
    copy = frame.information() + frame.redundancy()
    turns = 0
    for made in range(1, (rounds or 12) + 1):
        earlier = turns
        stuck = 0
        for i in frame.groups:
            for read, write, unsent in ((frame.rows, frame.set_rows, frame.unsent_in_rows(i)),
                                        (frame.columns, frame.set_columns, frame.unsent_in_columns(i))):
                for a in range(frame.design.M):
                    bits = word(read(i), a)
                    stuck += is_stuck(frame.design, bits, unsent)
                    positions = correction(frame.design, bits, unsent)
                    write(i, with_word(read(i), a, turn(bits, positions)))
                    turns += len(positions)
        if turns == earlier:
            break
    turned = sum(a != b for a, b in zip(copy, frame.information() + frame.redundancy()))
    return made, turned, frame.outside(), stuck


# ---- Document 01's rows under K

def same_rows_under_k():
    design = Design(4, 1, 1)
    lists = [1, 0, 2, 3], [3, 0, 1, 2]
    A = system(design, lists)
    assert A == [[0, 1, 1, 0], [0, 0, 0, 1], [1, 1, 1, 0], [0, 1, 0, 1]]
    W = inverse(A)
    assert W == [[1, 0, 1, 0], [0, 1, 0, 1], [1, 1, 0, 1], [0, 1, 0, 0]]
    assert system(design, ([0, 1, 2, 3], [0, 1, 2, 3])) == zeros(4, 4)

    frame = Frame(design, lists, 4)
    frame.load([0, 1, 0, 0] + frame.redundancy())
    encode(frame, W)
    assert frame.redundancy() == [0, 0, 0, 1] + [0, 1, 1, 0] + [0, 0, 0, 1] + [0, 0, 1, 1]

    frame = Frame(design, lists, 2)
    for received, rounds, result, left in (([0, 1] + [0, 0, 0, 1, 0, 1, 1, 1], 0, (2, 1, 0, 0), [0, 1] + [0, 0, 0, 1, 0, 1, 1, 0]),
                                           ([0, 1] + [0, 0, 0, 1, 0, 1, 1, 1], 1, (1, 1, 0, 0), [0, 1] + [0, 0, 0, 1, 0, 1, 1, 0]),
                                           ([0, 0] + [0, 0, 0, 0, 0, 1, 0, 1], 0, (2, 1, 1, 1), [0, 1] + [0, 0, 0, 0, 0, 1, 0, 1])):
        frame.load(received)
        assert decode(frame, rounds) == result
        assert frame.information() + frame.redundancy() == left


# ---- The vectors: names, and their values as antt writes them

def cons(values):
    return " ∷ ".join([str(value) for value in values] + ["[]"])


def two_bytes(places):
    return cons(byte for place in places for byte in (place % 256, place // 256))


def packed(matrix):
    """Eight columns a byte, the first in the lowest bit; here 8 divides their number."""
    return cons(sum(bit << j for j, bit in enumerate(row[b:b + 8])) for row in matrix for b in range(0, len(row), 8))


def frame_of(frame):
    return f"record {{ info = {cons(frame.information())}; red = {cons(frame.redundancy())} }}"


def counts_of(result):
    return "record {{ rounds = {}; turned = {}; outside = {}; stuck = {} }}".format(*result)


def permutation(*places):
    """A list that is not its own inverse."""
    assert sorted(places) == list(range(len(places)))
    assert any(places[q] != p for p, q in enumerate(places))
    return places


def second_kit():
    design = Design(4, 1, 2)
    lists = permutation(5, 3, 4, 1, 7, 2, 6, 0), permutation(0, 5, 7, 3, 2, 1, 6, 4)
    A = system(design, lists)
    W = inverse(A)
    assert multiply(A, W) == multiply(W, A) == identity(8)
    yield "self_s", two_bytes(lists[0])
    yield "parity_s", two_bytes(lists[1])
    yield "inverse_s", packed(W)
    yield "system_s", cons(f"({cons(row)})" for row in A)

    # Rule 9, with one bit of W turned.
    W_wrong = W[:5] + [turn(W[5], [3])] + W[6:]
    differences = [bit for row in add(multiply(A, W_wrong), identity(8)) for bit in row]
    yield "wrong_s", packed(W_wrong)
    yield "wrong_place_s", differences.index(1)

    # Row word 0 of group 1 would need a bit of B0 and stays, so column word 0 turns a right bit, which is turned back in round 2.
    frame = Frame(design, lists, 3)
    frame.load([1, 0, 1, 0] + [0, 0, 1, 0] + [1, 1, 0, 0] + frame.redundancy())
    encode(frame, W)
    sent = frame.information() + frame.redundancy()
    yield "info_s", cons(frame.information())
    yield "red_s", cons(frame.redundancy())
    frame.load(turn(sent, [0, 6, 27]))
    yield "received_s", frame_of(frame)
    yield "counts_s", counts_of(decode(frame, 0))
    assert frame.information() + frame.redundancy() == sent

    # In round 1 row word 0 would need a bit of B0 and column word 0 one of the block after the last, and both stay. From round 2 on column
    # word 0 turns a bit that row word 1 turns back in the next round, so that no round is idle.
    frame = Frame(design, lists, 1)
    frame.load([1, 0, 1, 0] + frame.redundancy())
    encode(frame, W)
    frame.load(turn(frame.information() + frame.redundancy(), [0, 11, 14]))
    yield "unsettled_s", frame_of(frame)
    result = decode(frame, 0)
    yield "unsettled_left_s", frame_of(frame)
    yield "unsettled_counts_s", counts_of(result)


def site(frame, i, a, j):
    """The byte of the buffers that changes with position j of row word a of group i."""
    rows = frame.rows(i)
    before = frame.information(), frame.redundancy()
    frame.set_rows(i, with_word(rows, a, turn(word(rows, a), [j])))
    after = frame.information(), frame.redundancy()
    frame.set_rows(i, rows)
    [found] = [f"{name} {k}" for name, u, v in zip(("in_info", "in_red"), before, after) for k in range(len(u)) if u[k] != v[k]]
    return found


def two_errors():
    design = Design(5, 2, 2)
    lists = (permutation(13, 7, 16, 2, 11, 0, 18, 5, 9, 14, 1, 19, 4, 10, 15, 6, 3, 17, 12, 8),
             permutation(6, 12, 1, 17, 3, 8, 14, 0, 19, 10, 5, 15, 2, 11, 7, 18, 9, 4, 16, 13))
    yield "lists_t", "record {{ self = {}; parity = {} }}".format(*map(cons, lists))

    # Row word 0 is a codeword but for a bit of X and one of Q, row word 1 but for a bit of B0 and one of X.
    frame = Frame(design, lists, 1)
    for a, information, wrong in ((0, [0, 0] + [1, 1] + [1, 0, 1, 1, 0, 0, 1, 0, 1, 0], (8, 17)),
                                  (1, [0, 1] + [1, 0] + [0, 1, 1, 0, 1, 0, 0, 1, 1, 1], (1, 9))):
        codeword = information + design.parity(information)
        frame.set_rows(1, with_word(frame.rows(1), a, turn(codeword, wrong)))
        assert design.changes(word(frame.rows(1), a)) == wrong
    yield "received_t", frame_of(frame)
    for a in range(2):
        positions = correction(design, word(frame.rows(1), a), frame.unsent_in_rows(1))
        yield f"correction{a}_t", cons(site(frame, 1, a, j) for j in positions)


def main(arguments):
    same_rows_under_k()
    lines = [f"{name} = {value}" for name, value in [*second_kit(), *two_errors()]]
    if not arguments:
        print("\n".join(lines))
        return 0
    if len(arguments) != 2 or arguments[0] != "--check":
        print(__doc__, file=sys.stderr)
        return 2
    with open(arguments[1], encoding="utf-8") as file:
        present = set(file.read().splitlines())
    missing = [line for line in lines if line not in present]
    for line in missing:
        print(f"{arguments[1]} lacks: {line}")
    return 1 if missing else 0


if __name__ == "__main__":
    sys.exit(main(sys.argv[1:]))
