"""The words of the test program `inspect` that stored tables need, answered by a reading: what `inspect` must print."""
import re

from products import Product, product
from reading import Reading, build_refusal, built

PLACES = 100000
FILE_BYTES = 262144
INPUT_BYTES = 1048576
TABLE_HEAD = "table {} [0-9]+ [0-9]+ [0-9]+"


def printed(table):
    lines = []
    for w, (count, depth, saturated) in enumerate(table.record.widths):
        lines.append(f"table {w + 1} {count} {depth} {saturated}")
        columns = table.fingerprints[w], table.parents[w], table.codes[w]
        lines += [f"{made:016x} {parent} {code}" for made, parent, code in zip(*columns)]
    return "\n".join(lines)


def numbers(words):
    """The numbers of a line, or None where one has another form."""
    if not all(re.fullmatch("[0-9]{1,10}", word) and int(word) <= 4294967295 for word in words):
        return None
    return [int(word) for word in words]


class Machine:
    def __init__(self, reading=None):
        self.reading = reading or Reading()
        # The table at hand; the parts of an index have 2^m places, with the scan there is none.
        self.table = self.m = self.index = None

    def answer(self, line):
        word, _, rest = line.partition(" ")
        if word == "read":
            return self.read(rest) if line != word else "refused 14 0"
        if word in ("table", "clashes"):
            return self.build(word, numbers(rest.split(" ")))
        if word == "index":
            self.m, self.index = int(rest), {}
            return line
        if line == "scan":
            self.m = self.index = None
            return line
        if self.table is None:
            return "refused 14 0"
        if line == "store":
            return self.store()
        if word == "write":
            return self.write(*numbers(rest.split(" ")))
        if word == "find":
            return self.find(*[int(x) for x in rest.split(" ")])
        if line == "fill" and self.m is not None:
            self.fill()
            return line
        if line == "places" and self.m is not None:
            return self.places()
        return "refused 14 0"

    def build(self, word, limits):
        self.table = None
        if limits is None or len(limits) != 4:
            return "refused 14 0"
        refusal = build_refusal(*limits, PLACES)
        if refusal:
            return f"refused {refusal} 0"
        self.table = built(*limits, word == "clashes")
        if self.m is not None:
            self.fill()
        return printed(self.table)

    def store(self):
        record, parents, codes, _ = self.table
        data = self.reading.stores(record, parents, codes, PLACES, FILE_BYTES)
        return f"refused {data} 0" if isinstance(data, int) else f"stored {len(data)} {data.hex()}"

    def read(self, digits):
        self.table = None
        if not re.fullmatch("([0-9a-f]{2})*", digits) or len(digits) > 2 * FILE_BYTES:
            return "refused 14 0"
        table = self.reading.accepts(bytes.fromhex(digits), PLACES)
        if isinstance(table, int):
            return f"refused {table} 0"
        self.table = table
        return printed(table)

    def listed(self, width, node):
        codes = []
        while node > 0:
            codes.append(self.table.codes[width - 1][node])
            node = self.table.parents[width - 1][node]
        return codes[::-1]

    def write(self, width, node, places):
        if places > 64:
            return "refused 14 0"
        if not 1 <= width <= self.table.record.q or node >= self.table.record.widths[width - 1][0]:
            return "refused 16 0"
        if places < self.table.record.g:
            return "refused 12 0"
        codes = self.listed(width, node)
        return " ".join(str(x) for x in [len(codes)] + codes)

    def find(self, width, k, *coefficients):
        """Of a matrix that passes the checks of a query; by the scan, or through an index just filled."""
        side = 4 << width
        asked = Product(width, tuple(coefficients[i : i + side] for i in range(0, len(coefficients), side)), k, 0)
        for node in range(self.table.record.widths[width - 1][0]):
            codes = self.listed(width, node)
            if product(width, codes).key() == asked.key():
                return f"{node} {len(codes)}"
        return "none"

    def fill(self):
        self.index = {}
        size = 1 << self.m
        assert size >= 2 * self.table.record.e
        for w, prints in enumerate(self.table.fingerprints):
            for node, made in enumerate(prints):
                place = made % size
                while (w, place) in self.index:
                    place = (place + 1) % size
                self.index[w, place] = node

    def places(self):
        lines = []
        for w in range(self.table.record.q):
            lines.append(f"places {w + 1}")
            lines += [f"{place} {node}" for (v, place), node in sorted(self.index.items()) if v == w]
        return "\n".join(lines)


def answers(lines, outputs):
    """What a program printed, cut into the answer of each line. An answer that is cut short is told as it is."""
    outputs = iter(outputs)
    ahead = next(outputs, None)
    for line in lines:
        word = line.split(" ")[0]
        heads = {"table": TABLE_HEAD, "clashes": TABLE_HEAD, "read": TABLE_HEAD, "places": "places {}"}
        head, answer, width = heads.get(word), [], 1
        while head and ahead is not None and re.fullmatch(head.format(width), ahead):
            answer.append(ahead)
            ahead = next(outputs, None)
            if head == TABLE_HEAD:
                for _ in range(int(answer[-1].split(" ")[2])):
                    if ahead is not None:
                        answer.append(ahead)
                    ahead = next(outputs, None)
            else:
                while ahead is not None and re.fullmatch("[0-9]+ [0-9]+", ahead):
                    answer.append(ahead)
                    ahead = next(outputs, None)
            width += 1
        if not answer and ahead is not None:
            answer.append(ahead)
            ahead = next(outputs, None)
        yield "\n".join(answer)
    while ahead is not None:
        yield ahead
        ahead = next(outputs, None)
