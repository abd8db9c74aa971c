"""A second reading of request W-209, from the documents alone: which files are accepted, and which bytes are written.

Whatever a wrong reading could have otherwise is a method of its own, so that `wrong` can put another in its place.
"""
from collections import namedtuple

from products import generators, identity, inverts, is_valid, kind_of, qubits

MARK = 4294967295
SUPPORTED = 3967

# record: Q, G, E, B and for each width (count, depth, saturated). The other three have a list of the filled places for
# each width.
Record = namedtuple("Record", "q g e b widths")
Table = namedtuple("Table", "record parents codes fingerprints")


class Reading:
    limit = 32767
    order = "little"

    # -- the sizes

    def number(self, data, i):
        """The number i of the file, 0 where the file has ended."""
        return int.from_bytes(data[4 * i : 4 * i + 4], self.order)

    def numbers_given(self, data):
        """How many numbers the sizes give, none of them tested; nothing where the file ends within the sizes."""
        q = self.number(data, 0)
        if len(data) < 4 * (4 + 3 * q):
            return None
        return 4 + 3 * q + 2 * sum(self.number(data, 4 + 3 * w) for w in range(q))

    def bad_length(self, data):
        given = self.numbers_given(data)
        return len(data) < 16 or given is None or len(data) != 4 * given

    def record(self, data):
        q, g, e, b = (self.number(data, i) for i in range(4))
        # A file of another length is refused before; only a wrong reading asks for its sizes.
        shown = min(q, len(data) // 12)
        widths = [tuple(self.number(data, 4 + 3 * w + i) for i in range(3)) for w in range(shown)]
        return Record(q, g, e, b, widths)

    def bad_q(self, q):
        return not 1 <= q <= 5

    def bad_g(self, g):
        return g > 64

    def bad_e(self, e):
        return not 1 <= e <= 1000000

    def bad_basis(self, b):
        return b == 0 or b & ~SUPPORTED != 0

    def bad_count(self, count, e):
        return not 1 <= count <= e

    def bad_depth(self, depth, g):
        return depth > g

    def bad_flag(self, saturated):
        return saturated > 1

    def bad_limits(self, record):
        return self.bad_q(record.q) or self.bad_g(record.g) or self.bad_e(record.e) or self.bad_basis(record.b)

    def bad_sizes(self, record):
        return self.bad_limits(record) or any(
            self.bad_count(count, record.e) or self.bad_depth(depth, record.g) or self.bad_flag(saturated)
            for count, depth, saturated in record.widths
        )

    def no_room(self, record, places):
        return places < record.q * record.e

    # -- the nodes

    def columns(self, data, record):
        """Parents and codes of each width."""
        counts = [count for count, _, _ in record.widths]
        at, columns = 4 + 3 * record.q, []
        for _ in range(2):
            column = []
            for count in counts:
                column.append([self.number(data, at + j) for j in range(count)])
                at += count
            columns.append(column)
        return columns

    def no_marks(self, parent, code, n):
        return parent != MARK or code != MARK

    def not_below(self, parent, node):
        return not parent < node

    def falls(self, parents, node):
        return node >= 2 and parents[node] < parents[node - 1]

    def bad_code(self, code, n, b):
        return not (is_valid(code, n) and b >> kind_of(code) & 1)

    def too_long(self, gates, g):
        return gates > g

    def unfit(self, made):
        return made.largest > self.limit

    def same_as(self, made):
        """Two nodes are refused where this is equal."""
        return made.key()

    def print_of(self, made):
        return made.fingerprint()

    def broken(self, n, g, b, parents, codes):
        """The rules that nodes of a width break, and the product of each node that has one. Where a rule is broken the
        later ones are still tried, as far as they mean something.
        """
        found, seen = set(), set()
        gates, products = [0], [identity(n)]
        if self.no_marks(parents[0], codes[0], n):
            found.add("marks")
        seen.add(self.same_as(products[0]))
        for node in range(1, len(parents)):
            parent, code = parents[node], codes[node]
            gates.append(None)
            products.append(None)
            if self.falls(parents, node):
                found.add("falls")
            if self.bad_code(code, n, b):
                found.add("code")
            if self.not_below(parent, node):
                found.add("below")
            # Without a chain to node 0 there is no list and no product.
            if not parent < node or not is_valid(code, n) or gates[parent] is None:
                continue
            gates[node] = gates[parent] + 1
            if self.too_long(gates[node], g):
                found.add("chain")
            # A list of more than 64 gates is of no table.
            if gates[node] > 64 or products[parent] is None:
                continue
            made = products[node] = products[parent].then(code)
            if self.unfit(made):
                found.add("fit")
            same = self.same_as(made)
            if same in seen:
                found.add("apart")
            seen.add(same)
        return found, products

    def all_broken(self, record, parents, codes):
        found, products = set(), []
        for w in range(record.q):
            more, made = self.broken(w + 1, record.g, record.b, parents[w], codes[w])
            found |= more
            products.append(made)
        return found, products

    # -- the entries

    def refuses(self, data, record, places):
        """The refusals before the nodes, in their order."""
        if self.bad_length(data):
            return 18
        if self.bad_sizes(record):
            return 19
        if self.no_room(record, places):
            return 5
        return 0

    def accepts(self, data, places):
        """The table, or the number of the refusal."""
        record = self.record(data)
        refusal = self.refuses(data, record, places)
        if refusal:
            return refusal
        parents, codes = self.columns(data, record)
        found, products = self.all_broken(record, parents, codes)
        if found:
            return 20
        return Table(record, parents, codes, [[self.print_of(made) for made in column] for column in products])

    def rules_broken(self, data):
        """Which rules of a node the file breaks, if it comes to the nodes."""
        record = self.record(data)
        if self.bad_length(data) or self.bad_sizes(record):
            return None
        return self.all_broken(record, *self.columns(data, record))[0]

    def stores(self, record, parents, codes, places, out_length):
        """The bytes, or the number of the refusal. `places` is the length of the shortest array; counts, depths and
        flags above Q are not looked at.
        """
        if self.bad_limits(record) or any(self.bad_count(count, record.e) for count, _, _ in record.widths[: record.q]):
            return 13
        if any(self.bad_depth(depth, record.g) for _, depth, _ in record.widths[: record.q]):
            return 19
        data = self.written(record, parents, codes)
        if self.no_room(record, places) or out_length < len(data):
            return 5
        filled = [[column[w][: record.widths[w][0]] for w in range(record.q)] for column in (parents, codes)]
        return 20 if self.all_broken(record, *filled)[0] else data

    def written(self, record, parents, codes):
        numbers = [record.q, record.g, record.e, record.b]
        for count, depth, saturated in record.widths[: record.q]:
            numbers += (count, depth, int(saturated))
        for column in (parents, codes):
            for w in range(record.q):
                numbers += column[w][: record.widths[w][0]]
        return b"".join(number.to_bytes(4, self.order) for number in numbers)


def build_refusal(q, g, e, b, places):
    """The first of a build's refusals, or 0."""
    if not 1 <= q <= 5:
        return 1
    if e == 0:
        return 2
    if b == 0 or b & ~SUPPORTED:
        return 3
    if g > 64 or e > 1000000:
        return 4
    return 5 if places < q * e else 0


def built(q, g, e, b, keeps_clashes, limit=32767):
    """The table of a build that is not refused."""
    widths, parents, codes, prints = [], [], [], []
    for n in range(1, q + 1):
        width, nodes = walked(n, g, e, b, keeps_clashes, limit)
        widths.append(width)
        parents.append([parent for parent, _, _ in nodes])
        codes.append([code for _, code, _ in nodes])
        prints.append([made.fingerprint() for _, _, made in nodes])
    return Table(Record(q, g, e, b, widths), parents, codes, prints)


def walked(n, g, e, b, keeps_clashes, limit):
    """(count, completed depth, saturated), and each node's parent, code and product."""
    nodes = [(MARK, MARK, identity(n))]
    steps = generators(n, b)
    name = lambda made: (made.fingerprint(), made.key()) if keeps_clashes else made.fingerprint()
    known = {name(nodes[0][2])}
    first, depth = 0, 0
    while steps and depth < g:
        last = len(nodes)
        for node in range(first, last):
            _, newest, here = nodes[node]
            for code in steps:
                if newest != MARK and (inverts(code, newest) or (not qubits(code) & qubits(newest) and code < newest)):
                    continue
                made = here.then(code)
                if made.largest > limit or name(made) in known:
                    continue
                if len(nodes) == e:
                    return (e, depth, 1), nodes
                known.add(name(made))
                nodes.append((node, code, made))
        depth += 1
        if len(nodes) == last:
            break
        first = last
    return (len(nodes), depth, 0), nodes
