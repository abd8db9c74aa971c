"""The lines that are given to `inspect`, by sorts. A sort is a function that gives blocks of lines; what a block prints
does not depend on what stands before it.
"""
import itertools
import random

from products import CCX, CCZ, CX, CZ, H, S, SDG, T, TDG, X, Z, code_of, generators, product
from reading import MARK, Reading, Record, built

READING = Reading()
TOP = 4294967295

# 50 gates within 127, after which one H is within it and a second one passes it, although two come to nothing.
LARGE = [TDG, T, T, TDG, TDG, T, TDG, T, T, TDG, TDG, T, TDG, T, T, TDG, T, TDG, TDG, T, TDG, TDG, TDG, TDG, T]
LARGE = [code for kind in LARGE for code in (code_of(H, 0), code_of(kind, 0))]

# Of width 3. 60 gates, after which one H fits and two do not; and 60 gates after which H does not.
FAR = [512, 256, 41248, 256, 40978, 256, 41248, 256, 40978, 256, 41248, 512, 25088, 256, 40978, 0, 40993, 0, 24576, 512]
FAR += [41248, 512, 40993, 0] + [40978, 0, 40993, 0] * 4 + [40978, 0]
FAR_LARGE = FAR + [40993, 0, 40978, 0] * 3 + [20480, 256, 41248, 256, 40978, 256]
FAR_LARGER = FAR + [20992, 256] + [40978, 256, 41248, 256] * 3 + [40978, 256, 0, 12288]

# 64 gates, of which the largest step comes to 32722; and 64 gates, of which the last comes to 32768.
FAR_WITHIN = FAR_LARGER + [41248, 256, 512, 256]
FAR_PAST = FAR_LARGE[:59] + [0, 24576, 0, 4352, 0]

# Small tables whose files are altered.
SMALL = [(1, 8, 10, 24), (1, 0, 1, 2), (1, 8, 7, 9), (2, 3, 6, 257), (2, 2, 4, 512), (3, 1, 4, 1026), (3, 2, 5, 2049)]
SMALL += [(2, 8, 4, 2), (5, 0, 1, 3967), (1, 64, 6, 33)]


def read(data):
    return "read " + data.hex()


def file_of(record, parents, codes):
    return READING.written(record, parents, codes)


def small_files():
    for limits in SMALL:
        table = built(*limits, True)
        yield table, file_of(*table[:3])


def with_number(data, i, number):
    return data[: 4 * i] + number.to_bytes(4, "little") + data[4 * i + 4 :]


def words(*numbers):
    return b"".join(number.to_bytes(4, "little") for number in numbers)


def tree(lists):
    """Parents and codes of the table of these lists and their beginnings, shorter first, each parent's together."""
    parents, codes, layer = [MARK], [MARK], {(): 0}
    wanted = {tuple(l[:i]) for l in lists for i in range(1, len(l) + 1)}
    for length in range(1, max((len(l) for l in lists), default=0) + 1):
        after = {}
        for codes_of in sorted((l for l in wanted if len(l) == length), key=lambda l: (layer[l[:-1]], l)):
            after[codes_of] = len(parents)
            parents.append(layer[codes_of[:-1]])
            codes.append(codes_of[-1])
        layer = after
    return parents, codes


ROOT = ([MARK], [MARK])


def one_width(n, g, e, b, parents, codes, depth=0, saturated=0):
    """A file in which all widths below n have node 0 alone."""
    widths = [(1, 0, 0)] * (n - 1) + [(len(parents), depth, saturated)]
    record = Record(n, g, e, b, widths)
    return file_of(record, [ROOT[0]] * (n - 1) + [parents], [ROOT[1]] * (n - 1) + [codes])


# -- tables, and what is written of them


def tables():
    chosen = random.Random(1)
    limits = [(1, 8, 10, 24), (1, 8, 24, 9), (1, 8, 23, 9), (1, 8, 25, 9), (1, 8, 1, 2), (1, 8, 2, 2), (1, 0, 1, 2)]
    limits += [(1, 64, 60, 33), (2, 8, 6, 256), (3, 8, 12, 1024), (3, 1, 34, 3967), (3, 1, 35, 3967), (3, 1, 36, 3967)]
    limits += [(2, 64, 40, 3967)]
    bases = [1 << kind for kind in (H, X, Z, S, SDG, T, TDG, CX, CZ, CCX, CCZ)]
    bases += [383, 3967, 9, 24, 33, 257, 1025, 2049]
    for q, b in itertools.product((1, 2, 3), bases):
        limits += [(q, chosen.randrange(5), e, b) for e in (1, 2, chosen.randrange(3, 9), chosen.randrange(9, 31))]
    for _ in range(160):
        q, b = chosen.choice((1, 2, 3)), 0
        while b == 0:
            b = chosen.randrange(4096) & 3967
        limits.append((q, chosen.choice((0, 1, 2, 3, 4, 5, 8, 20, 64)), chosen.randrange(1, 41), b))
    for four in limits:
        for word in ("table", "clashes"):
            table = built(*four, word == "clashes")
            yield [" ".join(map(str, (word, *four))), "store", read(file_of(*table[:3])), "store"]
    # Refused builds leave nothing to write.
    refused = [(0, 8, 10, 24), (6, 8, 10, 24), (1, 8, 0, 24), (1, 8, 10, 0), (1, 8, 10, 128), (1, 65, 10, 24)]
    for four in refused + [(5, 8, 20001, 24)]:
        for word in ("table", "clashes"):
            yield ["table 1 8 10 24", " ".join(map(str, (word, *four))), "store"]


# -- lines of another form


def forms():
    good = file_of(*built(1, 8, 10, 24, True)[:3]).hex()
    yield ["read ", "store"]
    digits = [good[:-1], good + "0", good.replace("f", "F"), good + " ", " " + good, "0g", "0", "0x", " ", "-1"]
    for some in digits + ["00 00", "0A", ":0", "/0", "`0", "@0"]:
        yield ["table 1 8 10 24", "read " + some, "store"]
    for line in ["read", "reads 00", "rea 00", "Read 00", " read 00", "stor", "Store", "stored"]:
        yield [line]
    for line in ["store ", "store 1", " store"]:
        yield ["table 1 8 10 24", line]
    # Words that are none leave the table.
    yield ["table 1 8 10 24", "stores", "store"]
    yield [f"read {good}", "store", "table 1 8 10 25", "store", f"read {good}", "store"]
    yield [f"read {good}", "table 0 8 10 24", "store", f"read {good}", "read ", "store"]


# -- every byte, every number


def every_byte():
    chosen = random.Random(2)
    for place, (table, data) in enumerate(small_files()):
        for i in range(len(data)):
            byte = data[i]
            some = {0, 1, 255, byte ^ 1, byte ^ 128, (byte + 1) % 256, (byte - 1) % 256}
            some |= {chosen.randrange(256), chosen.randrange(256)}
            for value in range(256) if place < 2 else sorted(some):
                if value != byte:
                    yield [read(data[:i] + bytes([value]) + data[i + 1 :])]


def edges(table):
    q, g, e, b, widths = table.record
    count = max(count for count, _, _ in widths)
    values = {0, 1, 2, 3, 4, 5, 6, 7, g - 1, g, g + 1, e - 1, e, e + 1, count - 1, count, count + 1}
    values |= {63, 64, 65, 126, 127, 128, 255, 256, 383}
    values |= {3839, 3967, 3968, 4095, 4096, b ^ 1, b ^ 128, b ^ 4096, b | 3967, b ^ (1 << 31), 65535, 65536}
    values |= {20000, 20001, 25000, 25001, 33333, 33334, 50000, 50001, 99999, 100000, 100001, 999999, 1000000, 1000001}
    values |= {2**24, 2**30 + q, 2**31 - 1, 2**31, 2**31 + q, 2**31 + g, 2**31 + e, 2**31 + count, 2**32 - 2, TOP}
    return sorted(value for value in values if 0 <= value <= TOP)


def every_number():
    """Each number at the head of a file gets each edge value, at its length and at the one that the value gives; each
    later number some.
    """
    for table, data in small_files():
        head = 4 + 3 * table.record.q
        for i in range(head):
            for value in edges(table):
                altered = with_number(data, i, value)
                yield [read(altered)]
                given = READING.numbers_given(altered)
                if given and given <= 100 and 4 * given != len(data):
                    yield [read((altered + words(*[MARK] * 100))[: 4 * given])]
        for i in range(head, len(data) // 4):
            for value in range(len(data) // 4):
                yield [read(with_number(data, i, value))]
            for value in (64, 256, 4096, 12288, 20480, 2**31, TOP - 1, TOP):
                yield [read(with_number(data, i, value))]


def two_numbers():
    """Two numbers of the head at once: the first refusal is told."""
    for table, data in list(small_files())[:4]:
        q, g, e, _, widths = table.record
        few = [0, 1, 2, 5, 6, 64, 65, 128, g + 1, e + 1, 100001, 1000001, TOP]
        for i, j in itertools.combinations(range(4 + 3 * q), 2):
            for first, second in itertools.product(few, few):
                if (first + second + i + j) % 3 == 0:
                    yield [read(with_number(with_number(data, i, first), j, second))]


# -- lengths


def lengths():
    for table, data in small_files():
        for length in range(len(data)):
            yield [read(data[:length])]
        for more in list(range(1, 17)) + [24, 32, 64, 400]:
            yield [read(data + bytes(more))]
            yield [read(data + (data * 12)[:more])]
        # The same at the front, so that all numbers are others.
        for more in range(1, 9):
            yield [read(bytes(more) + data)]
            yield [read(data[more:])]
    for length in range(0, 41):
        yield [read(bytes(length))]
        yield [read(b"\xff" * length)]
        yield [read((words(1) + bytes(40))[:length])]


def widths():
    """Q at and past its ends, with the length that it gives, and with others."""
    for q in [0, 1, 2, 3, 4, 5, 6, 7, 8, 31, 64, 255, 256, 1000]:
        for g, e, b in [(8, 10, 24), (0, 1, 2), (64, 1000000, 3967)]:
            data = words(q, g, e, b) + words(1, 0, 0) * q + words(MARK) * (2 * q)
            for more in (0, -4, 4, -8, 8, -1, 1):
                yield [read((data + bytes(8))[: len(data) + more])]
            for count in (0, 2, 4):
                yield [read(words(q, g, e, b) + words(count, 0, 0) * q + words(MARK) * (2 * q))]
    # Lengths that are right only if what passes 32 bits is dropped; and Q whose low bits are those of a good file.
    for table, data in small_files():
        q = table.record.q
        for more in [2**30, 2**31, 3 * 2**30, 2**16, 2**8, 2**24, 2**29, 2**28]:
            yield [read(with_number(data, 0, q + more))]
        for w in range(q):
            count = table.record.widths[w][0]
            for more in [2**29, 2**30, 2**31, 3 * 2**29, 7 * 2**29, 2**16, 2**8, 2**28]:
                yield [read(with_number(data, 4 + 3 * w, count + more))]
        if q > 1:
            for w in range(q - 1):
                # Counts whose sum is right if what passes 32 bits is dropped, and nodes that go to another width.
                count, after = table.record.widths[w][0], table.record.widths[w + 1][0]
                for less in (count, count + 1, 2**31 + count):
                    moved = with_number(data, 4 + 3 * w, (count - less) % 2**32)
                    yield [read(with_number(moved, 7 + 3 * w, (after + less) % 2**32))]
                for moved in range(1, count + 1):
                    other = with_number(data, 4 + 3 * w, count - moved)
                    yield [read(with_number(other, 7 + 3 * w, after + moved))]
    large = [TOP, TOP - 1, 2**31, 2**30, 2**30 + 1, 0x55555555, 0x55555556, 0xAAAAAAAB, 0x15555556, 65536, 21841]
    for q in large:
        for length in list(range(0, 20)) + [28, 36, 40, 60, 64, 100, 400]:
            yield [read((words(q, 8, 10, 24) + words(1, 0, 0) * 40)[:length])]


def room(places=100000):
    """E and Q about the places that the arrays have."""
    for q in range(1, 6):
        for b in (2, 3967):
            for e in [places // q - 1, places // q, places // q + 1, places, places + 1, 999999, 1000000, 1000001]:
                record = Record(q, 8, e, b, [(1, 0, 0)] * q)
                data = file_of(record, [ROOT[0]] * q, [ROOT[1]] * q)
                yield [read(data), "store"]
                # Without marks: 5 stands before 20.
                yield [read(data[:-4] + words(0))]


def orders():
    """Each set of the four refusals, some times: the first is told."""
    lengthen = [lambda d: d + words(0), lambda d: d[:-4], lambda d: d + b"\0", lambda d: d[:-1]]
    lengthen += [lambda d: d + words(MARK, MARK)]
    for table, data in small_files():
        q, g, e, _, sizes = table.record
        resize = [lambda d: with_number(d, 6, 2), lambda d: with_number(d, 5, g + 1), lambda d: with_number(d, 3, 0)]
        resize += [lambda d: with_number(d, 3, 4096), lambda d: with_number(d, 1, 65)]
        no_room = [lambda d: with_number(d, 2, 100001), lambda d: with_number(d, 2, 1000000)]
        first, second = 4 + 3 * q, 4 + 3 * q + sum(count for count, _, _ in sizes)
        spoil = [lambda d: with_number(d, first, 0), lambda d: with_number(d, second, 0)]
        spoil += [lambda d: with_number(d, second - 1, TOP - 1), lambda d: with_number(d, len(d) // 4 - 1, 7 * 4096)]
        for chosen in itertools.product([0, 1], repeat=4):
            sets = [causes if use else [lambda d: d] for use, causes in zip(chosen, (spoil, no_room, resize, lengthen))]
            for causes in itertools.product(*sets):
                altered = data
                for cause in causes:
                    altered = cause(altered)
                yield [read(altered)]


# -- the rules of a node, each broken by itself

SOME = [(0, 0, 0), (0, 1, 0), (1, 0, 0), (0, 1, 2), (1, 0, 2), (0, 2, 1)]
MORE = [(2, 1, 0), (2, 0, 1), (1, 2, 0), (1, 1, 0), (0, 0, 1), (1, 0, 1)]
MORE += [(3, 0, 0), (15, 0, 0), (0, 3, 0), (0, 1, 3), (2, 2, 0), (1, 1, 1)]
BAD_CODES = [code_of(kind, *three) for kind in range(34) for three in SOME]
BAD_CODES += [code_of(kind, *three) for kind in range(12) for three in MORE]
BAD_CODES += [code_of(kind + more, 0) for kind in range(12) for more in (32, 64, 256, 2**10, 2**16, 2**19)]
BAD_CODES += [TOP, TOP - 1, 2**31, 106514, 65536, 61440]


def marks():
    for table, data in small_files():
        q, sizes = table.record.q, table.record.widths
        at = 4 + 3 * q
        total = sum(count for count, _, _ in sizes)
        for w in range(q):
            for value in [0, 1, 2, 4096, 12288, 2**31 - 1, 2**31, TOP - 1, TOP - 255]:
                yield [read(with_number(data, at, value))]
                yield [read(with_number(data, at + total, value))]
                yield [read(with_number(with_number(data, at, value), at + total, value))]
            at += sizes[w][0]


def bad_codes():
    """The last node of a width gets each code, under several bases; some are good."""
    for n in (1, 2, 3):
        for b in (3967, 3967 ^ 1, 24, 1 << CX | 2, 1 << CZ | 1, 1 << CCX | 1 << CCZ, 1 << CCZ | 8, 1 << CCX | 8):
            steps = generators(n, b)
            if not steps:
                continue
            for code in sorted(set(BAD_CODES)):
                yield [read(one_width(n, 4, 9, b, [MARK, 0], [MARK, code]))]
                if code != steps[0]:
                    yield [read(one_width(n, 4, 9, b, [MARK, 0, 0], [MARK, code, steps[0]]))]


def links():
    """Parents at, past and below their nodes, rising, standing and falling, at each node."""
    for count in (2, 3, 4, 5):
        # H and T in any order, so that products are apart in some.
        orders = list(itertools.product([0, 20480], repeat=count - 1))
        for parents in itertools.product(range(count + 1), repeat=count - 1):
            for codes in orders if count < 5 else [(0, 20480, 0, 20480), (20480, 0, 0, 20480)]:
                yield [read(one_width(1, 8, 9, 33, [MARK, *parents], [MARK, *codes]))]
    # Width 3: five nodes after node 0, all of one gate, and one parent among them that is another; then two.
    codes = [0, 256, 512, 20480, 20736, 20992]
    for node, parent in itertools.product(range(1, 7), list(range(8)) + [MARK, MARK - 1, 2**31]):
        altered = [MARK] + [0] * 6
        altered[node] = parent
        yield [read(one_width(3, 8, 9, 33, altered, [MARK] + codes))]
    for first, second in itertools.combinations(range(1, 7), 2):
        for one, other in itertools.product((0, 1, 2, 3, 4, 5, 6), repeat=2):
            altered = [MARK] + [0] * 6
            altered[first], altered[second] = one, other
            yield [read(one_width(3, 8, 9, 33, altered, [MARK] + codes))]


def chains():
    """Chains of as many gates as G, of one fewer and of more, at each width."""
    step = [code_of(H, 0), code_of(T, 0)]
    for n in (1, 2, 3):
        for length in [0, 1, 2, 3, 5, 8, 16, 31, 32, 63, 64, 65, 66, 80]:
            chain = [step[i % 2] for i in range(length)]
            for g in {0, 1, length - 2, length - 1, length, length + 1, 63, 64}:
                if 0 <= g <= 64:
                    yield [read(one_width(n, g, 100, 33, *tree([chain])))]
    # One chain of 5 gates among short ones, its end last.
    for g in range(8):
        for extra in ([], [[20480]], [[20480, 0]], [[20480, 20480], [20480, 0]]):
            yield [read(one_width(1, g, 20, 33, *tree([[0, 20480, 0, 20480, 0]] + extra)))]
    # All nodes of a large file in one chain.
    for count in (300, 5000):
        parents = [MARK] + list(range(count - 1))
        yield [read(one_width(1, 64, count, 33, parents, [MARK] + [step[i % 2] for i in range(count - 1)]))]


def equal_nodes():
    """Two lists that are equal up to phase, of each power of omega between them, and none else in the file."""
    chosen = random.Random(3)
    for n, b, longest, wanted in [(1, 127, 5, 700), (2, 3967, 3, 300), (2, 383, 4, 300), (3, 3967, 2, 300)]:
        steps = generators(n, b)
        by_key = {}
        for _ in range(6 * wanted):
            codes = tuple(chosen.choice(steps) for _ in range(chosen.randrange(longest + 1)))
            by_key.setdefault(product(n, codes).key(), set()).add(codes)
        made = 0
        for lists in by_key.values():
            for one, other in itertools.combinations(sorted(lists), 2):
                if made < wanted:
                    made += 1
                    parents, codes = tree([one, other])
                    yield [read(one_width(n, 8, 20, b, parents, codes))]
                    # Without the last node it is mostly accepted.
                    yield [read(one_width(n, 8, 20, b, parents[:-1], codes[:-1]))]
    # A last node that comes back to its parent's parent, in tables of some size: to each node that has children.
    for limits in [(1, 8, 60, 127), (2, 8, 90, 383), (3, 2, 70, 3967)]:
        table = built(*limits, True)
        n, parents, codes = limits[0], table.parents[-1], table.codes[-1]
        back = {S: SDG, SDG: S, T: TDG, TDG: T}
        for node in range(parents[-1], len(parents)):
            code = codes[node]
            code = code_of(back.get(code >> 12, code >> 12), code >> 8 & 15, code >> 4 & 15, code & 15)
            yield [read(one_width(n, 64, 100, limits[3], parents + [node], codes + [code]))]
    # The same gate twice, and gates that differ by a turn of all rows: Z X and X Z, S X S and X, T X T and X.
    for lists in [[[0], [0, 0]], [[4096], [4096, 4096]], [[8192, 4096], [4096, 8192]], [[12288, 4096, 12288], [4096]]]:
        yield [read(one_width(1, 8, 20, 127, *tree(lists)))]
    for lists in [[[20480, 4096, 20480], [4096]], [[24576, 4096, 24576], [4096]], [[20480, 4096, 20480, 4096]]]:
        yield [read(one_width(1, 8, 20, 127, *tree(lists)))]
    # Siblings that are the same, and two widths that have the same codes, which are not.
    yield [read(one_width(1, 8, 20, 127, [MARK, 0, 0], [MARK, 0, 0]))]
    record = Record(2, 8, 5, 127, [(3, 1, 0), (3, 1, 0)])
    yield [read(file_of(record, [[MARK, 0, 0]] * 2, [[MARK, 0, 20480]] * 2)), "store"]


def fits():
    """Lists that pass 127, which fit, and lists that pass 32767, which do not."""
    narrow = 1 << H | 1 << S | 1 << T | 1 << TDG
    for n in (1, 2, 3):
        for codes in [LARGE, LARGE + [0], LARGE + [0, 0], LARGE + [0, 20480], LARGE + [0, 20480, 0]]:
            yield [read(one_width(n, 64, 70, narrow, *tree([codes])))]
    wide = narrow | 1 << X | 1 << CCX
    # Where S or T on another qubit stands between two H, the product fits and one of its steps does not.
    ends = [[], [0], [0, 0], [0, 12544, 0], [0, 20736, 0], [256], [512], [0, 12544], [0, 0, 12288]]
    for n in (3, 4, 5):
        for codes in [far + end for far in (FAR_LARGE, FAR_LARGER) for end in ends] + [FAR_WITHIN, FAR_PAST]:
            for less in (0, 1):
                yield [read(one_width(n, 64, 70, wide, *tree([codes[: len(codes) - less]])))]


def altered():
    """Depths, flags and limits that are not those of the build, and are accepted all the same."""
    # The flag of a saturated table is taken away, and what it has no room for is none; a depth that was not completed.
    whole, table = built(1, 8, 24, 9, True), built(1, 8, 23, 9, True)
    for saturated in (0, 1):
        data = one_width(1, 8, 23, 9, table.parents[0], table.codes[0], table.record.widths[0][1], saturated)
        yield [read(data), "store", found(1, whole, 22), found(1, whole, 23)]
    table = built(1, 1, 5, 127, True)
    for depth in (0, 1, 2):
        yield [read(one_width(1, 1, 5, 127, table.parents[0], table.codes[0], depth, 1)), "store"]
    for table, data in small_files():
        record, parents, codes, _ = table
        q, g, e, b, sizes = record
        for w in range(q):
            for depth in range(g + 2):
                for saturated in (0, 1, 2):
                    other = list(sizes)
                    other[w] = (sizes[w][0], depth, saturated)
                    yield [read(file_of(record._replace(widths=other), parents, codes)), "store"]
        for more in sorted({*range(0, 12), 63, 64, 65}):
            yield [read(file_of(record._replace(g=more), parents, codes)), "store"]
        for more in sorted({*range(0, 12), 100000 // q, 100000 // q + 1}):
            yield [read(file_of(record._replace(e=more), parents, codes)), "store"]
        for kind in range(32):
            yield [read(file_of(record._replace(b=b ^ (1 << kind)), parents, codes)), "store"]
            yield [read(file_of(record._replace(b=b | (1 << kind)), parents, codes)), "store"]
        # As many nodes as there are, down to node 0 alone, in each width.
        for w in range(q):
            for count in range(1, sizes[w][0]):
                other = list(sizes)
                other[w] = (count, sizes[w][1], sizes[w][2])
                cut = [[column[v][: other[v][0]] for v in range(q)] for column in (parents, codes)]
                yield [read(file_of(record._replace(widths=other), *cut)), "store"]


def random_nodes(chosen, n, g, b, count, apart):
    """Parents that do not fall and codes of the basis, at random; with `apart` each node has a product of its own."""
    steps = generators(n, b)
    parents, codes, gates, made, least = [MARK], [MARK], [0], [product(n, [])], 0
    seen = {made[0].key()}
    for _ in range(4 * count):
        if len(parents) == count or not steps:
            break
        parent, code = chosen.randrange(least, len(parents)) if chosen.random() < 0.4 else least, chosen.choice(steps)
        here = made[parent].then(code)
        if apart and (gates[parent] == g or here.key() in seen):
            least = max(least, min(parent, len(parents) - 1))
            if chosen.random() < 0.3 and least + 1 < len(parents):
                least += 1
            continue
        least = parent
        seen.add(here.key())
        parents.append(parent)
        codes.append(code)
        gates.append(gates[parent] + 1)
        made.append(here)
    return parents, codes


def elsewhere():
    """Tables from elsewhere: random ones that keep all rules or some, and with one to three numbers changed."""
    chosen, steps = random.Random(4), generators(3, 3967)
    for _ in range(2500):
        q, g, b = chosen.choice((1, 1, 2, 2, 3)), chosen.choice((0, 1, 2, 3, 4, 6, 9, 64)), 0
        while b == 0:
            b = chosen.choice((chosen.randrange(4096) & 3967, 3967, 383, 1 << chosen.choice((0, 5, 8, 10)) | 33))
        apart = chosen.random() < 0.75
        columns = [random_nodes(chosen, n, g, b, chosen.randrange(1, 12), apart) for n in range(1, q + 1)]
        parents, codes = [column[0] for column in columns], [column[1] for column in columns]
        e = max(len(column) for column in parents) + chosen.choice((0, 0, 1, 5))
        sizes = [(len(column), chosen.randrange(g + 1), chosen.randrange(2)) for column in parents]
        data = file_of(Record(q, g, e, b, sizes), parents, codes)
        nodes = [f"write {w + 1} {chosen.randrange(sizes[w][0])} 64" for w in range(q)] if apart else []
        yield [read(data), "store"] + nodes
        for _ in range(3):
            other = data
            for _ in range(chosen.randrange(1, 4)):
                i = chosen.randrange(len(data) // 4)
                near = READING.number(other, i) + chosen.choice((-2, -1, 1, 2, 16, 256, 4096, -4096))
                anything = chosen.choice((0, 1, 2, 3, 4, TOP, 4096 * chosen.randrange(12), chosen.choice(steps)))
                other = with_number(other, i, chosen.choice((near, near, anything)) % 2**32)
            yield [read(other)]


def questions():
    """What is asked of a table that was read: each node's product and list."""
    for limits in [(1, 8, 24, 9), (2, 3, 20, 383), (3, 2, 12, 3967), (2, 8, 16, 33)]:
        table = built(*limits, True)
        lines = [read(file_of(*table[:3]))]
        for w in range(limits[0]):
            for node in range(table.record.widths[w][0]):
                lines.append(f"write {w + 1} {node} 64")
                lines.append(found(w + 1, table, node))
            lines.append(f"write {w + 1} {table.record.widths[w][0]} 64")
        lines += [f"write {limits[0] + 1} 0 64", "write 0 0 64", f"write 1 0 {limits[1] - 1}"]
        yield lines
    # A smaller table is read into the places of a larger one: what the places past its count still hold is not found.
    table = built(1, 8, 24, 9, True)
    for count in (1, 5, 23):
        lines = ["table 1 8 24 9", read(one_width(1, 8, 24, 9, table.parents[0][:count], table.codes[0][:count]))]
        yield lines + [found(1, table, node) for node in range(24)]


def found(n, table, node):
    codes = []
    while node:
        codes.append(table.codes[n - 1][node])
        node = table.parents[n - 1][node]
    made = product(n, codes[::-1])
    return " ".join(str(x) for x in ["find", n, made.k] + [x for row in made.rows for x in row])


def index():
    """The index stays as it is until it is filled."""
    pairs = [((1, 8, 10, 24), (1, 8, 10, 33)), ((2, 3, 12, 383), (2, 2, 9, 257)), ((3, 2, 15, 3967), (3, 2, 16, 1025))]
    for one, other in pairs:
        table = built(*other, True)
        data = read(file_of(*table[:3]))
        lines = ["index 5", "table " + " ".join(map(str, one)), "places", data, "places", "fill", "places", "store"]
        for w in range(other[0]):
            lines += [found(w + 1, table, node) for node in range(table.record.widths[w][0])]
        yield lines + ["read ", "places", "fill", data, "fill", "places", "scan", "places"]
        yield ["index 6", data, "fill", "places", "scan"]


def largest():
    """Files about the largest that `inspect` has room for, and equal nodes far apart in them."""
    g, b = 64, 1 << H | 1 << T | 1 << TDG
    table = built(1, g, 32765, b, True)
    parents, codes = table.parents[0], table.codes[0]

    def cut(count, e=None):
        return one_width(1, g, e or count, b, parents[:count], codes[:count], 3, 1)

    for count in (4095, 4096, 4097, 8191, 8192, 8193, 16384, 16385, 32763, 32764):
        yield [read(cut(count)), "store"]
    for count in (32764, 32765):
        # With the index, since the scan is slow here.
        yield ["index 16", f"clashes 1 {g} {count} {b}", "store", "scan"]
    whole = cut(32764)
    for length in (262136, 262139):
        yield [read(whole[:length])]
    for more in range(1, 9):
        yield [read(whole + bytes(more))]
    yield [read(cut(32765))]
    yield ["read " + "00" * 499990]
    # Q 2, 262,144 bytes.
    record = Record(2, g, 32763, b, [(32762, 0, 0), (1, 0, 0)])
    yield [read(file_of(record, [parents[:32762], [MARK]], [codes[:32762], [MARK]])), "store"]
    # One chain.
    yield [read(one_width(1, 64, 32764, b, [MARK] + list(range(32763)), [MARK] + [0, 20480] * 16381 + [0]))]
    back = {0: 0, 20480: 24576, 24576: 20480}
    for count in (8192, 8193, 16384, 32764):
        least = parents[count - 2]
        some = [least, least + 1, (least + count) // 2, count - 3, count - 2]
        for node in some + [parents.index(8191), parents.index(8192)]:
            if least <= node <= count - 2:
                equal = parents[: count - 1] + [node], codes[: count - 1] + [back[codes[node]]]
                yield [read(one_width(1, g, count, b, *equal))]


SORTS = [tables, forms, every_byte, every_number, two_numbers, lengths, widths, room, orders, marks, bad_codes, links]
SORTS += [chains, equal_nodes, fits, altered, elsewhere, questions, index, largest]
