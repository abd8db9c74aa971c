"""Wrong readings, each of which some line must notice; and checks of the second reading that need no program."""
import itertools
import random

from products import OPERANDS, Product, generators, identity, inverts, is_valid, kind_of, largest_of, lowered
from products import code_of, operands_of, product, qubits, turned
from reading import MARK, SUPPORTED, Reading, Record, built


class Wrong(Reading):
    def print_of(self, made):
        return made.fingerprint() if made else 0


# -- length and sizes


class BigEndian(Wrong):
    "numbers are big-endian"
    order = "big"


class LongerFile(Wrong):
    "bytes after the last number are passed over"

    def bad_length(self, data):
        given = self.numbers_given(data)
        return given is None or len(data) < 4 * given


class ShorterFile(Wrong):
    "a file may end early"

    def bad_length(self, data):
        given = self.numbers_given(data)
        return len(data) < 16 or (given is not None and len(data) > 4 * given)


class Rounded(Wrong):
    "one to three bytes at the end are passed over"

    def bad_length(self, data):
        given = self.numbers_given(data)
        return given is None or len(data) // 4 != given


class Dropped(Wrong):
    "of the length what passes 32 bits is dropped"

    def bad_length(self, data):
        q = self.number(data, 0)
        if len(data) < 16 or 12 * q % 2**32 + 16 > len(data):
            return True
        counts = sum(self.number(data, 4 + 3 * w) for w in range(min(q, len(data) // 12)))
        return len(data) != (16 + 12 * q + 8 * counts) % 2**32


class FirstCount(Wrong):
    "the length goes by the first width's count alone"

    def bad_length(self, data):
        q = self.number(data, 0)
        return len(data) < 16 or len(data) != 16 + 12 * q + 8 * q * self.number(data, 4)


class AllPlaces(Wrong):
    "a file has all E places of each width"

    def numbers_given(self, data):
        q = self.number(data, 0)
        return 4 + 3 * q + 2 * q * self.number(data, 2)


class SizesFirst(Wrong):
    "19 stands before 18"

    def refuses(self, data, record, places):
        return 19 if self.bad_sizes(record) else super().refuses(data, record, places)


class RoomFirst(Wrong):
    "5 stands before 19"

    def refuses(self, data, record, places):
        if self.bad_length(data):
            return 18
        return 5 if self.no_room(record, places) else super().refuses(data, record, places)


class NodesFirst(Wrong):
    "20 stands before 5"

    def accepts(self, data, places):
        table = super().accepts(data, 10**12)
        record = self.record(data)
        return 5 if not isinstance(table, int) and self.no_room(record, places) else table


class Q0(Wrong):
    "Q may be 0"

    def bad_q(self, q):
        return q > 5


class Q6(Wrong):
    "Q may be 6"

    def bad_q(self, q):
        return not 1 <= q <= 6


class Q4(Wrong):
    "Q may not be 5"

    def bad_q(self, q):
        return not 1 <= q <= 4


class G65(Wrong):
    "G may be 65"

    def bad_g(self, g):
        return g > 65


class G63(Wrong):
    "G may not be 64"

    def bad_g(self, g):
        return g > 63


class AnyE(Wrong):
    "E may be above 1,000,000"

    def bad_e(self, e):
        return e == 0


class LessE(Wrong):
    "E may not be 1,000,000"

    def bad_e(self, e):
        return not 1 <= e < 1000000


class NoBasis(Wrong):
    "B may be 0"

    def bad_basis(self, b):
        return b & ~SUPPORTED != 0


class BasisBit7(Wrong):
    "B may have bit 7"

    def bad_basis(self, b):
        return b == 0 or b > 4095


class AnyBasis(Wrong):
    "B may have any bits"

    def bad_basis(self, b):
        return b & SUPPORTED == 0


class Count0(Wrong):
    "a count may be 0"

    def bad_count(self, count, e):
        return count > e

    def broken(self, n, g, b, parents, codes):
        return super().broken(n, g, b, parents, codes) if parents else (set(), [])


class CountPastE(Wrong):
    "a count may pass E"

    def bad_count(self, count, e):
        return count == 0


class CountBelowE(Wrong):
    "a count must be below E"

    def bad_count(self, count, e):
        return not 1 <= count < e


class FirstSizes(Wrong):
    "sizes of width 1 alone are looked at"

    def bad_sizes(self, record):
        return super().bad_sizes(record._replace(widths=record.widths[:1]))


class AnyDepth(Wrong):
    "a depth may pass G"

    def bad_depth(self, depth, g):
        return False


class DepthTo64(Wrong):
    "a depth may be up to 64"

    def bad_depth(self, depth, g):
        return depth > 64


class DepthBelowG(Wrong):
    "a depth must be below G"

    def bad_depth(self, depth, g):
        return depth >= max(g, 1)


class Flag2(Wrong):
    "saturated may be 2"

    def bad_flag(self, saturated):
        return saturated > 2


class FlagAny(Wrong):
    "saturated may be any number"

    def bad_flag(self, saturated):
        return False


class FlagByCount(Wrong):
    "saturated must be 1 only where the count is E"

    def bad_sizes(self, record):
        return super().bad_sizes(record) or any(size[2] == 1 and size[0] < record.e for size in record.widths)


class FlagFormed(Wrong):
    "saturated is not taken from the file"

    def record(self, data):
        made = super().record(data)
        if self.bad_sizes(made):
            return made
        return made._replace(widths=[(count, depth, int(count == made.e)) for count, depth, _ in made.widths])


class DepthFormed(Wrong):
    "the depth is not taken from the file but is the deepest node's"

    def accepts(self, data, places):
        table = super().accepts(data, places)
        if isinstance(table, int):
            return table
        widths = []
        for parents, (count, _, saturated) in zip(table.parents, table.record.widths):
            gates = [0]
            for node in range(1, count):
                gates.append(gates[parents[node]] + 1)
            widths.append((count, max(gates), saturated))
        return table._replace(record=table.record._replace(widths=widths))


class RoomOfCounts(Wrong):
    "arrays need only the places that are filled"

    def no_room(self, record, places):
        return places < sum(size[0] for size in record.widths)


class RoomOfOne(Wrong):
    "arrays need E places"

    def no_room(self, record, places):
        return places < record.e


class RoomToSpare(Wrong):
    "arrays need more than Q x E places"

    def no_room(self, record, places):
        return places <= record.q * record.e


class NoRoomTest(Wrong):
    "the places are not looked at"

    def no_room(self, record, places):
        return False


class WidthByWidth(Wrong):
    "parents and codes of one width stand together"

    def columns(self, data, record):
        at, parents, codes = 4 + 3 * record.q, [], []
        for count, _, _ in record.widths:
            for column in (parents, codes):
                column.append([self.number(data, at + j) for j in range(count)])
                at += count
        return parents, codes


class CodesFirst(Wrong):
    "codes stand before parents"

    def columns(self, data, record):
        return super().columns(data, record)[::-1]


# -- nodes


class AnyMarks(Wrong):
    "node 0 needs no marks"

    def no_marks(self, parent, code, n):
        return False


class MarkOfParent(Wrong):
    "node 0 needs the mark of its parent alone"

    def no_marks(self, parent, code, n):
        return parent != MARK


class MarkOfCode(Wrong):
    "node 0 needs the mark of its code alone"

    def no_marks(self, parent, code, n):
        return code != MARK


class FirstMarks(Wrong):
    "only width 1 needs marks"

    def no_marks(self, parent, code, n):
        return n == 1 and super().no_marks(parent, code, n)


class ParentAtNode(Wrong):
    "a parent may be its node"

    def not_below(self, parent, node):
        return parent > node


class ParentAnywhere(Wrong):
    "parents need not lie below"

    def not_below(self, parent, node):
        return False


class MarkedParent(Wrong):
    "a later node may have the mark as its parent"

    def not_below(self, parent, node):
        return parent != MARK and parent >= node


class SignedParent(Wrong):
    "parents are compared as signed numbers"

    def not_below(self, parent, node):
        return node <= parent < 2**31


class FallsFrom1(Wrong):
    "node 1 is compared with node 0"

    def falls(self, parents, node):
        return parents[node] < parents[node - 1]


class FallsFrom4(Wrong):
    "node 3 is not compared with node 2; node 2 alone cannot fall, since node 1 has the parent 0"

    def falls(self, parents, node):
        return node >= 4 and parents[node] < parents[node - 1]


class MayFall(Wrong):
    "parents may fall"

    def falls(self, parents, node):
        return False


class FallsAtEnd(Wrong):
    "the last node is not compared"

    def falls(self, parents, node):
        return node < len(parents) - 1 and super().falls(parents, node)


class MustRise(Wrong):
    "no two nodes have one parent"

    def falls(self, parents, node):
        return node >= 2 and parents[node] <= parents[node - 1]


class AnyValidCode(Wrong):
    "codes need not be of B"

    def bad_code(self, code, n, b):
        return not is_valid(code, n)


class AnyCodeOfB(Wrong):
    "codes of B need not be valid"

    def bad_code(self, code, n, b):
        return not b >> kind_of(code) & 1


class AnyWidthCode(Wrong):
    "codes are valid as at width 5"

    def bad_code(self, code, n, b):
        return super().bad_code(code, 5, b)


class KindOf5Bits(Wrong):
    "of a kind only five bits are looked at"

    def bad_code(self, code, n, b):
        return super().bad_code(code % 2**17, n, b)


class UnusedOperands(Wrong):
    "unused operands may be anything"

    def bad_code(self, code, n, b):
        used = OPERANDS.get(kind_of(code), 3)
        return super().bad_code(code >> 4 * (3 - used) << 4 * (3 - used), n, b)


class AnyOrder(Wrong):
    "operands of Cz, Ccx and Ccz come in any order"

    def bad_code(self, code, n, b):
        used = OPERANDS.get(kind_of(code), 0)
        rest = operands_of(code)[used:]
        orders = [first + rest for first in itertools.permutations(operands_of(code)[:used])]
        return all(super(AnyOrder, self).bad_code(code_of(kind_of(code), *three), n, b) for three in orders)


class SixKinds(Wrong):
    "B is not looked at for the kinds that only lists have"

    def bad_code(self, code, n, b):
        return kind_of(code) not in (15, 16, 19, 20, 25, 26) and super().bad_code(code, n, b)


class LastCode(Wrong):
    "the last node's code is not looked at"

    def broken(self, n, g, b, parents, codes):
        found, products = super().broken(n, g, b, parents, codes)
        if "code" in found and not any(self.bad_code(code, n, b) for code in codes[1:-1]):
            found.remove("code")
        return found, products


class AnyChain(Wrong):
    "chains may pass G"

    def too_long(self, gates, g):
        return False


class ChainTo64(Wrong):
    "chains may have 64 gates"

    def too_long(self, gates, g):
        return gates > 64


class ChainBelowG(Wrong):
    "chains must be shorter than G"

    def too_long(self, gates, g):
        return gates >= g


class Limit127(Wrong):
    "coefficients end at 127"
    limit = 127


class Limit32700(Wrong):
    "coefficients end at 32700; nothing is known that comes to 32723 up to 32767"
    limit = 32700


class Limit32768(Wrong):
    "coefficients may be 32768"
    limit = 32768


class NoLimit(Wrong):
    "coefficients have no end"

    def unfit(self, made):
        return False


class ProductLimit(Wrong):
    "the limit is one of the product, not of each step"

    def unfit(self, made):
        return largest_of(made.rows) > self.limit


class AnyEqual(Wrong):
    "nodes may be equal up to phase"

    def same_as(self, made):
        return object()


class ExactlyEqual(Wrong):
    "nodes may be equal up to phase, but not equal"

    def same_as(self, made):
        return made.k, made.rows


class CornerPhase(Wrong):
    "the phase is that of the first entry, and 0 where it is zero"

    def same_as(self, made):
        corner = made.rows[0][:4]
        phase = min(range(8), key=lambda power: turned(corner, power)) if any(corner) else 0
        return made.k, tuple(turned(row, phase) for row in made.rows)


class SignPhase(Wrong):
    "nodes may be equal up to a phase that is not 1 or -1"

    def same_as(self, made):
        return made.k, min(made.rows, tuple(turned(row, 4) for row in made.rows))


class Pairs(Wrong):
    def compared(self, parents, one, other):
        return True

    def same_as(self, made):
        return object()

    def broken(self, n, g, b, parents, codes):
        found, products = super().broken(n, g, b, parents, codes)
        by_key = {}
        for node, made in enumerate(products):
            if made:
                by_key.setdefault(made.key(), []).append(node)
        if any(self.compared(parents, *two) for same in by_key.values() for two in itertools.combinations(same, 2)):
            found.add("apart")
        return found, products


class NeighbourPairs(Pairs):
    "a node is compared with the one before it"

    def compared(self, parents, one, other):
        return other == one + 1


class SiblingPairs(Pairs):
    "a node is compared with those of its parent"

    def compared(self, parents, one, other):
        return parents[one] == parents[other]


class PairsOf0(Pairs):
    "node 0 is not compared"

    def compared(self, parents, one, other):
        return one > 0


class PairsOfLast(Pairs):
    "the last node is not compared"

    def compared(self, parents, one, other):
        return other < len(parents) - 1


class PairsOf8192(Pairs):
    "nodes are compared within blocks of 8,192"

    def compared(self, parents, one, other):
        return one // 8192 == other // 8192


class FirstWidth(Wrong):
    "nodes of width 1 alone are looked at"

    def broken(self, n, g, b, parents, codes):
        found, products = super().broken(n, g, b, parents, codes)
        return found if n == 1 else set(), products


class LastWidth(Wrong):
    "nodes of width Q alone are looked at"

    def all_broken(self, record, parents, codes):
        products = super().all_broken(record, parents, codes)[1]
        n = record.q
        return self.broken(n, record.g, record.b, parents[n - 1], codes[n - 1])[0], products


class AsWalked(Wrong):
    "a node that the walk would skip is refused"

    def skipped(self, parents, codes, node):
        newest = codes[parents[node]]
        code = codes[node]
        return newest != MARK and (inverts(code, newest) or (not qubits(code) & qubits(newest) and code < newest))

    def broken(self, n, g, b, parents, codes):
        found, products = super().broken(n, g, b, parents, codes)
        if not found and any(self.skipped(parents, codes, node) for node in range(1, len(parents))):
            found.add("walk")
        return found, products


class InOrder(AsWalked):
    "nodes of one parent come with codes rising"

    def skipped(self, parents, codes, node):
        return node >= 2 and parents[node] == parents[node - 1] and codes[node] < codes[node - 1]


class PrintOfRows(Wrong):
    "fingerprints are formed without the phase"

    def print_of(self, made):
        other = Product(made.n, made.rows, made.k, made.largest)
        other.kept_key = (made.k, made.rows)
        return other.fingerprint()


def classes(of=Wrong):
    for one in of.__subclasses__():
        if one is not Pairs:
            yield one
        yield from classes(one)


# -- checks by themselves


def ring_product(x, y):
    made = [0] * 4
    for i, a in enumerate(x):
        for j, b in enumerate(y):
            made[(i + j) % 4] += a * b if i + j < 4 else -a * b
    return tuple(made)


def dense(n, code):
    """A gate's matrix, entry by entry, and its exponent: what it does to each column of the identity."""
    kind, wires = kind_of(code), operands_of(code)[: OPERANDS[kind_of(code)]]
    bit = lambda index, q: index >> (n - 1 - q) & 1
    flip = lambda index, q: index ^ 1 << (n - 1 - q)
    power = {2: 4, 3: 2, 4: 6, 5: 1, 6: 7, 9: 4, 11: 4}.get(kind)
    made = [[(0, 0, 0, 0)] * 2**n for _ in range(2**n)]
    for column in range(2**n):
        if power is not None:
            made[column][column] = turned((1, 0, 0, 0), power if all(bit(column, q) for q in wires) else 0)
        elif kind == 0:
            made[column][column] = (-1 if bit(column, wires[0]) else 1, 0, 0, 0)
            made[flip(column, wires[0])][column] = (1, 0, 0, 0)
        else:
            row = flip(column, wires[-1]) if all(bit(column, q) for q in wires[:-1]) else column
            made[row][column] = (1, 0, 0, 0)
    return made, int(kind == 0)


def multiplied(left, right):
    made = []
    for row in left:
        line = []
        for column in zip(*right):
            line.append(tuple(map(sum, zip(*(ring_product(x, y) for x, y in zip(row, column))))))
        made.append(line)
    return made


def check_products():
    """Products by rows against products by dense matrices, and equality up to phase against each power of omega."""
    chosen, made, pairs = random.Random(7), 0, 0
    for n, longest, times in [(1, 40, 300), (2, 12, 150), (3, 5, 40)]:
        steps, seen = generators(n, SUPPORTED), []
        for _ in range(times):
            codes = [chosen.choice(steps) for _ in range(chosen.randrange(longest + 1))]
            rows, k = [[row[i : i + 4] for i in range(0, len(row), 4)] for row in identity(n).rows], 0
            for code in codes:
                gate, more = dense(n, code)
                rows, k = multiplied(gate, rows), k + more
            rows, k = lowered(tuple(tuple(x for entry in row for x in entry) for row in rows), k)
            here = product(n, codes)
            assert (here.rows, here.k) == (rows, k), (n, codes)
            made += 1
            seen.append(here)
        for one, other in itertools.combinations(seen[:120], 2):
            equal = lambda p: one.k == other.k and one.rows == tuple(turned(row, p) for row in other.rows)
            some = any(equal(p) for p in range(8))
            assert (one.key() == other.key()) == some
            assert not some or one.fingerprint() == other.fingerprint()
            pairs += 1
    return f"{made} products by dense matrices, {pairs} pairs compared up to phase"


def check_entries():
    """The worked table's file by hand, and the refusals of the writer, which `inspect` cannot be brought to."""
    reading, table = Reading(), built(1, 8, 10, 24, True)
    record, parents, codes, _ = table
    worked = [1, 8, 10, 24, 4, 3, 0, MARK, 0, 0, 1, MARK, 12288, 16384, 12288]
    data = b"".join(bytes([x & 255, x >> 8 & 255, x >> 16 & 255, x >> 24]) for x in worked)
    cases = [(reading.stores(record, parents, codes, 10, 60), data), (reading.accepts(data, 10), table)]
    cases += [(reading.accepts(data, 9), 5), (reading.accepts(data[:-1], 10), 18), (reading.accepts(b"", 10), 18)]

    def ask(places=10, out=60, p=parents, c=codes, **other):
        return reading.stores(record._replace(**other), p, c, places, out)

    bad, deep = [(0, 3, 0)], [(4, 9, 0)]
    cases += [(ask(places=9), 5), (ask(out=59), 5), (ask(places=9, out=59), 5), (ask(out=61), data)]
    cases += [(ask(q=0), 13), (ask(q=6), 13), (ask(g=65), 13), (ask(e=0), 13), (ask(e=3), 13), (ask(b=0), 13)]
    cases += [(ask(b=128), 13), (ask(e=1000001), 13), (ask(widths=bad), 13)]
    cases += [(ask(widths=[(11, 3, 0)]), 13), (ask(widths=deep), 19)]
    cases += [(ask(widths=[(0, 9, 0)]), 13), (ask(places=9, widths=bad), 13), (ask(places=9, widths=deep), 19)]
    spoilt = [[MARK, 0, 0, 3]]
    cases += [(ask(p=spoilt), 20), (ask(out=59, p=spoilt), 5), (ask(places=9, p=spoilt), 5)]
    cases += [(ask(p=spoilt, widths=deep), 19)]
    cases += [(ask(b=8), 20), (ask(g=1, widths=[(4, 1, 0)]), 20), (ask(c=[[MARK, 12288, 16384, 16384]]), 20)]
    # What stands above Q, and past the count, is not looked at.
    cases += [(ask(widths=[(4, 3, 0), (0, 99, 1)]), data), (ask(p=[parents[0] + [9]], c=[codes[0] + [9]]), data)]
    for place, (got, expected) in enumerate(cases):
        assert got == expected, (place, got, expected)
    return f"{len(cases)} cases of the entries by hand"
