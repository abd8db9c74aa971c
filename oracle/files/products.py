"""Products of lists of gates, worked exactly and plainly, from the documents alone: no bound on coefficients, and the
largest that a step came to is kept beside.
"""
H, X, Z, S, SDG, T, TDG, CX, CZ, CCX, CCZ = 0, 1, 2, 3, 4, 5, 6, 8, 9, 10, 11
OPERANDS = {H: 1, X: 1, Z: 1, S: 1, SDG: 1, T: 1, TDG: 1, CX: 2, CZ: 2, CCX: 3, CCZ: 3}
TURNS = {S: 2, SDG: 6, T: 1, TDG: 7, Z: 4, CZ: 4, CCZ: 4}
INVERSE = {S: SDG, SDG: S, T: TDG, TDG: T}
WORDS = 2**64


def kind_of(code):
    return code >> 12


def operands_of(code):
    return (code >> 8) & 15, (code >> 4) & 15, code & 15


def code_of(kind, a, b=0, c=0):
    return kind * 4096 + a * 256 + b * 16 + c


def is_valid(code, n):
    """Whether the code is one of the eleven kinds with operands in the order that a table's codes have."""
    kind, (a, b, c) = kind_of(code), operands_of(code)
    if kind not in OPERANDS or kind * 4096 + a * 256 + b * 16 + c != code:
        return False
    if OPERANDS[kind] == 1:
        return a < n and b == 0 and c == 0
    if OPERANDS[kind] == 2:
        return a < n and b < n and c == 0 and (a < b if kind == CZ else a != b)
    if kind == CCX:
        return a < b and b < n and c < n and c != a and c != b
    return a < b < c < n


def generators(n, basis):
    """All valid codes of the basis, rising: the nested loops run so."""
    codes = []
    for kind in sorted(OPERANDS):
        if basis >> kind & 1:
            all_codes = (code_of(kind, a, b, c) for a in range(n) for b in range(n) for c in range(n))
            codes += [code for code in all_codes if is_valid(code, n)]
    return codes


def qubits(code):
    return set(operands_of(code)[: OPERANDS[kind_of(code)]])


def inverts(code, other):
    kind = kind_of(other)
    return code == code_of(INVERSE.get(kind, kind), *operands_of(other))


def turned(row, power):
    """A row, four numbers for each entry, turned so many times."""
    for _ in range(power):
        after = []
        for i in range(0, len(row), 4):
            a, b, c, d = row[i : i + 4]
            after += (-d, a, b, c)
        row = after
    return tuple(row)


def divisible(row):
    return all((row[i] ^ row[i + 2]) & 1 == 0 and (row[i + 1] ^ row[i + 3]) & 1 == 0 for i in range(0, len(row), 4))


def divided(row):
    after = []
    for i in range(0, len(row), 4):
        a, b, c, d = row[i : i + 4]
        after += ((b - d) // 2, (a + c) // 2, (b + d) // 2, (c - a) // 2)
    return tuple(after)


def lowered(rows, k):
    while k > 0 and all(divisible(row) for row in rows):
        rows, k = tuple(divided(row) for row in rows), k - 1
    return rows, k


def largest_of(rows):
    return max(max(max(row), -min(row)) for row in rows)


class Product:
    """The exact product of a list in lowest denominator. `largest` is the largest number, either way, that a step of
    the list came to before it was lowered. Products of longer lists are formed once and kept.
    """

    def __init__(self, n, rows, k, largest):
        self.n, self.rows, self.k, self.largest = n, rows, k, largest
        self.after = {}
        self.kept_key = self.kept_print = None

    def then(self, code):
        if code not in self.after:
            self.after[code] = self.formed(code)
        return self.after[code]

    def formed(self, code):
        kind, n, rows = kind_of(code), self.n, self.rows
        bits = [1 << (n - 1 - q) for q in operands_of(code)[: OPERANDS[kind]]]
        if kind in TURNS:
            mask = sum(bits)
            made = tuple(turned(row, TURNS[kind]) if r & mask == mask else row for r, row in enumerate(rows))
            return Product(n, made, self.k, self.largest)
        target = bits[-1]
        if kind != H:
            controls = sum(bits) - target
            made = tuple(rows[r ^ target] if r & controls == controls else rows[r] for r in range(1 << n))
            return Product(n, made, self.k, self.largest)
        made = list(rows)
        for r in range(1 << n):
            if not r & target:
                upper, lower = rows[r], rows[r | target]
                made[r] = tuple(x + y for x, y in zip(upper, lower))
                made[r | target] = tuple(x - y for x, y in zip(upper, lower))
        largest = max(self.largest, largest_of(made))
        rows, k = lowered(tuple(made), self.k + 1)
        return Product(n, rows, k, largest)

    def phase(self):
        for row in self.rows:
            for i in range(0, len(row), 4):
                entry = row[i : i + 4]
                if any(entry):
                    return min(range(8), key=lambda power: turned(entry, power))
        return 0

    def key(self):
        """Two products of a width have the same key exactly where they are equal up to phase."""
        if self.kept_key is None:
            phase = self.phase()
            self.kept_key = (self.k, tuple(turned(row, phase) for row in self.rows))
        return self.kept_key

    def fingerprint(self):
        if self.kept_print is None:
            k, rows = self.key()
            first, second = 0xCBF29CE484222325, 0x9E3779B97F4A7C15
            for word in (self.n, k, *(x for row in rows for x in row)):
                word &= WORDS - 1
                first = (first ^ word) * 0x100000001B3 % WORDS
                second ^= (word + 0x517CC1B727220A95) % WORDS
                second = ((second << 27) % WORDS | second >> 37) * 0x94D049BB133111EB % WORDS
            fold = first ^ ((second << 32) % WORDS | second >> 32)
            fold = (fold ^ fold >> 30) * 0xBF58476D1CE4E5B9 % WORDS
            fold = (fold ^ fold >> 27) * 0x94D049BB133111EB % WORDS
            self.kept_print = fold ^ fold >> 31
        return self.kept_print


IDENTITIES = {}


def identity(n):
    if n not in IDENTITIES:
        rows = []
        for r in range(1 << n):
            row = [0] * (4 << n)
            row[4 * r] = 1
            rows.append(tuple(row))
        IDENTITIES[n] = Product(n, tuple(rows), 0, 1)
    return IDENTITIES[n]


def product(n, codes):
    made = identity(n)
    for code in codes:
        made = made.then(code)
    return made


def forget():
    """Lets go of the products of longer lists."""
    IDENTITIES.clear()
