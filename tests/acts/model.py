#!/usr/bin/env python3
"""A model of the acts program, apart from the product: reads an acts text on standard input and writes what the program has to print.

It shares nothing with the index. Points, stages and stamps are kept in dictionaries and a question is a full scan of them. The tree is a list of leaves
and of groups of pages, by the specification's rules of splitting and evening out, so that leaves, their spans and the free pages are known. The bound
of a leaf is found by a plain search over all pairs of its span. Slow; meant for texts of a few thousand lines.
"""
import sys

PAGES = 64
LEAST = 8
MOST = 16


def field(text, low, high):
    """The number that a field writes, or None."""
    body = text[1:] if text[:1] == b"-" else text
    if not body or any(c not in b"0123456789" for c in body):
        return None
    if len(body) > 1 and body[:1] == b"0":
        return None
    if len(body) > 10:
        return None
    value = int(body)
    if text[:1] == b"-":
        if value == 0:
            return None
        value = -value
    return value if low <= value <= high else None


def values(line, d):
    """Act, identifier, k, stage, stamp and point of a line, or None."""
    if len(line) > 256:
        return None
    parts = line.split(b" ")
    ranges = [(1, 3)] + [(0, 2**32 - 1)] * 4 + [(-32768, 32767)] * d
    if len(parts) != len(ranges):
        return None
    got = [field(p, low, high) for p, (low, high) in zip(parts, ranges)]
    if any(v is None for v in got):
        return None
    return *got[:5], tuple(got[5:])


def pair(point):
    """Pyramid and height."""
    d = len(point)
    height = max(abs(c) for c in point)
    j = next(i for i, c in enumerate(point) if abs(c) == height)
    return (j if point[j] < 0 else j + d, height)


def distance(p, q):
    return sum((a - b) ** 2 for a, b in zip(p, q))


def gap(q, m):
    """How far q is from -m .. m."""
    return max(0, abs(q) - m)


def slice_distance(q, pyramid, height):
    """The least squared distance from q to a grid point of that pair, or None where there is none."""
    d = len(q)
    if height == 0:
        return sum(c * c for c in q) if pyramid == d else None
    j = pyramid % d
    top = -height if pyramid < d else height
    total = (q[j] - top) ** 2
    for i, c in enumerate(q):
        if i != j:
            total += gap(c, height - 1 if i < j else height) ** 2
    return total


def bound(q, first, last):
    """The least over every pair from first to last, in order of pairs."""
    best = None
    for pyramid in range(first[0], last[0] + 1):
        low = first[1] if pyramid == first[0] else 0
        high = last[1] if pyramid == last[0] else 1000
        for height in range(low, high + 1):
            here = slice_distance(q, pyramid, height)
            if here is not None and (best is None or here < best):
                best = here
    return best


class Page:
    def __init__(self, level, items):
        self.level = level
        self.items = items

    def first(self):
        return self.items[0] if self.level == 0 else self.items[0].first()

    def leaves(self):
        return [self] if self.level == 0 else [l for p in self.items for l in p.leaves()]


class Index:
    """Keys in pages; only the number of pages in use is kept, for which page is taken cannot be seen."""

    def __init__(self, d):
        self.d = d
        self.points = {}
        self.stages = {}
        self.stamps = {}
        self.root = Page(0, [])
        self.free = PAGES - 2

    def path(self, key):
        """The pages from the root down to the leaf of a key, each with the place taken in it."""
        page, way = self.root, []
        while page.level > 0:
            at = max([i for i, c in enumerate(page.items) if c.first() <= key], default=0)
            way.append((page, at))
            page = page.items[at]
        return way, page

    def wanted(self, key):
        way, leaf = self.path(key)
        run = 0
        for page in [leaf] + [p for p, _ in reversed(way)]:
            if len(page.items) < MOST:
                return run
            run += 1
        return run + 1

    def insert(self, i, stage, stamp, point):
        if any(abs(c) > 1000 for c in point):
            return 4
        if i == 0:
            return 5
        if stage > 5:
            return 15
        if i in self.points:
            return 6
        key = pair(point) + (i,)
        if self.wanted(key) > self.free:
            return 9
        self.points[i] = point
        self.stages[i] = stage
        self.stamps[i] = stamp
        way, page = self.path(key)
        page.items = sorted(page.items + [key])
        while len(page.items) > MOST:
            new = Page(page.level, page.items[9:])
            page.items = page.items[:9]
            self.free -= 1
            if not way:
                self.root = Page(page.level + 1, [page, new])
                self.free -= 1
                break
            parent, at = way.pop()
            parent.items.insert(at + 1, new)
            page = parent
        return 0

    def delete(self, i):
        if i == 0:
            return 5
        if i not in self.points:
            return 7
        key = pair(self.points.pop(i)) + (i,)
        del self.stages[i], self.stamps[i]
        way, page = self.path(key)
        page.items.remove(key)
        while way and len(page.items) < LEAST:
            parent, at = way.pop()
            left = at if at + 1 < len(parent.items) else at - 1
            a, b = parent.items[left], parent.items[left + 1]
            other = b if page is a else a
            if len(other.items) > LEAST:
                if other is b:
                    a.items.append(b.items.pop(0))
                else:
                    b.items.insert(0, a.items.pop())
            else:
                a.items += b.items
                parent.items.remove(b)
                self.free += 1
            page = parent
        if self.root.level > 0 and len(self.root.items) == 1:
            self.root = self.root.items[0]
            self.free += 1
        return 0

    def question(self, q, k, marks):
        """The code, the rows and the number of leaves; marks has bit s for each stage s that is looked for.

        Rows go by lower distance, then by later stamp, then by lower identifier.
        """
        if any(abs(c) > 1000 for c in q):
            return 4, [], 0
        if not 1 <= k <= 64:
            return 10, [], 0
        if not 1 <= marks <= 63:
            return 16, [], 0
        ordered = sorted((distance(p, q), -self.stamps[i], i) for i, p in self.points.items() if marks & 2 ** self.stages[i])
        rows = [(dist, i) for dist, _, i in ordered[:k]]
        leaves = [l for l in self.root.leaves() if l.items]
        if len(rows) < k:
            return 0, rows, len(leaves)
        far = rows[-1][0]
        return 0, rows, sum(bound(q, l.items[0][:2], l.items[-1][:2]) <= far for l in leaves)


def lines_of(text):
    lines = text.split(b"\n")
    if lines[-1] == b"":
        lines.pop()
    return lines


def names(line):
    for d in range(1, 17):
        if line == b" ".join([b"act id k stage stamp"] + [b"c%d" % i for i in range(d)]):
            return d
    return 0


def main():
    lines = lines_of(sys.stdin.buffer.read())
    print("line code id dist leaves")
    d = names(lines[0]) if lines else 0
    if d == 0:
        print("1 13 0 0 0")
        return
    index = Index(d)
    for n, line in enumerate(lines[1:], 2):
        got = values(line, d)
        if got is None:
            print(n, 13, 0, 0, 0)
            continue
        act, i, k, stage, stamp, point = got
        if act == 1:
            print(n, index.insert(i, stage, stamp, point), i, 0, 0)
        elif act == 2:
            print(n, index.delete(i), i, 0, 0)
        else:
            code, rows, leaves = index.question(point, k, stage)
            for dist, who in rows or [(0, 0)]:
                print(n, code, who, dist, leaves)


main()
