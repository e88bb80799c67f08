"""Writes formulas in DIMACS files, on which solvers are measured: python3 tools/formulas.py FOLDER

Circuits are turned into clauses gate by gate, as a verifier does it. Each file is the same on every machine.
"""

import itertools
import os
import random
import sys


class Formula:
    """Clauses over variables; each gate takes the next ones."""

    def __init__(self):
        self.variables = 0
        self.clauses = []
        self.true = self.fresh()
        self.add(self.true)

    def fresh(self):
        self.variables += 1
        return self.variables

    def word(self, width):
        return [self.fresh() for _ in range(width)]

    def number(self, value, width):
        return [self.true if value >> i & 1 else -self.true for i in range(width)]

    def add(self, *clause):
        self.clauses.append(clause)

    def conj(self, a, b):
        out = self.fresh()
        self.add(-out, a)
        self.add(-out, b)
        self.add(out, -a, -b)
        return out

    def disj(self, a, b):
        return -self.conj(-a, -b)

    def xor(self, a, b):
        out = self.fresh()
        self.add(-out, a, b)
        self.add(-out, -a, -b)
        self.add(out, -a, b)
        self.add(out, a, -b)
        return out

    def choice(self, c, a, b):
        """a where c is true, else b"""
        out = self.fresh()
        self.add(-c, -a, out)
        self.add(-c, a, -out)
        self.add(c, -b, out)
        self.add(c, b, -out)
        return out

    def majority(self, a, b, c):
        return self.disj(self.conj(a, b), self.conj(c, self.disj(a, b)))

    def choices(self, c, a, b):
        return [self.choice(c, x, y) for x, y in zip(a, b)]

    def sum(self, a, b, carry=None):
        """The word of the sum, and the carry out."""
        carry = -self.true if carry is None else carry
        bits = []
        for x, y in zip(a, b):
            bits.append(self.xor(self.xor(x, y), carry))
            carry = self.majority(x, y, carry)
        return bits, carry

    def selected_sum(self, a, b, block):
        """The same sum, each block of bits computed for both carries."""
        carry, bits = -self.true, []
        for i in range(0, len(a), block):
            low, with_none = self.sum(a[i : i + block], b[i : i + block])
            high, with_one = self.sum(a[i : i + block], b[i : i + block], self.true)
            bits += self.choices(carry, high, low)
            carry = self.choice(carry, with_one, with_none)
        return bits

    def difference(self, a, b):
        """The word of a - b, and whether a is at least b."""
        return self.sum(a, [-x for x in b], self.true)

    def product(self, a, b):
        """All bits of the product, row by row."""
        width = len(a) + len(b)
        out = self.number(0, width)
        for i, y in enumerate(b):
            row = self.number(0, i) + [self.conj(x, y) for x in a] + self.number(0, len(b) - i)
            out, _ = self.sum(out, row)
        return out

    def quotient(self, a, b):
        """Quotient and rest, bit by bit from the highest."""
        rest, bits = self.number(0, len(b)), []
        for x in reversed(a):
            longer = [x] + rest
            less, fits = self.difference(longer, b + [-self.true])
            rest = self.choices(fits, less, longer)[: len(b)]
            bits.append(fits)
        return bits[::-1], rest

    def less(self, a, b):
        """a < b, from the lowest bit on."""
        out = -self.true
        for x, y in zip(a, b):
            out = self.choice(self.xor(x, y), y, out)
        return out

    def differ(self, a, b):
        """That two words differ."""
        self.add(*[self.xor(x, y) for x, y in zip(a, b)])

    def equal(self, a, b):
        for x, y in zip(a, b):
            self.add(-x, y)
            self.add(x, -y)

    def text(self):
        lines = [f"p cnf {self.variables} {len(self.clauses)}"]
        lines += [" ".join(map(str, clause)) + " 0" for clause in self.clauses]
        return "\n".join(lines) + "\n"


def adders(width):
    """a + (b + c) is (a + b) + c, with carries that are computed ahead."""
    f = Formula()
    a, b, c = f.word(width), f.word(width), f.word(width)
    left, _ = f.sum(a, f.sum(b, c)[0])
    f.differ(left, f.selected_sum(f.selected_sum(a, b, 4), c, 4))
    return f


def multipliers(width):
    """a * b is b * a."""
    f = Formula()
    a, b = f.word(width), f.word(width)
    f.differ(f.product(a, b), f.product(b, a))
    return f


def factors(width, value):
    """Factors of a number, neither of them 1."""
    f = Formula()
    a, b = f.word(width), f.word(width)
    f.equal(f.product(a, b), f.number(value, 2 * width))
    f.add(*a[1:])
    f.add(*b[1:])
    f.add(-f.less(b, a))
    return f


def dividers(width):
    """Quotient times divisor with a rest below it is the dividend in one way."""
    f = Formula()
    a, b, q, r = f.word(width), f.word(width), f.word(width), f.word(width)
    whole, _ = f.sum(f.product(q, b), r + f.number(0, width))
    f.equal(whole, a + f.number(0, width))
    f.add(f.less(r, b))
    quotient, rest = f.quotient(a, b)
    f.differ(quotient + rest, q + r)
    return f


def comparators(width, count):
    """A cycle of words each below the next, compared in two ways."""
    f = Formula()
    words = [f.word(width) for _ in range(count)]
    for i, (a, b) in enumerate(zip(words, words[1:] + words[:1])):
        f.add(f.less(a, b) if i % 2 else -f.difference(a, b)[1])
    return f


def miters(inputs, gates, seed):
    """A circuit by chance, and the same with each gate written in another way."""
    f, chance = Formula(), random.Random(seed)
    left = f.word(inputs)
    right = list(left)
    for _ in range(gates):
        i, j, k = chance.sample(range(max(0, len(left) - 3 * inputs), len(left)), 3)
        kind = chance.randrange(3)
        if kind == 0:
            left.append(f.xor(left[i], left[j]))
            right.append(f.disj(f.conj(right[i], -right[j]), f.conj(-right[i], right[j])))
        elif kind == 1:
            left.append(f.choice(left[i], left[j], left[k]))
            right.append(f.disj(f.conj(right[i], right[j]), f.conj(-right[i], right[k])))
        else:
            left.append(f.majority(left[i], left[j], left[k]))
            both, one = f.conj(right[i], right[j]), f.xor(right[i], right[j])
            right.append(f.disj(both, f.conj(one, right[k])))
    f.differ(left[-inputs:], right[-inputs:])
    return f


def chains(width, steps, seed):
    """A program of conditional sums, and the same with the sums taken before the conditions."""
    f, chance = Formula(), random.Random(seed)
    left = right = f.word(width)
    for _ in range(steps):
        flag = f.fresh()
        one = f.number(chance.randrange(1 << width), width)
        other = f.number(chance.randrange(1 << width), width)
        left = f.choices(flag, f.sum(left, one)[0], f.sum(left, other)[0])
        right = f.sum(f.choices(flag, one, other), right)[0]
    f.differ(left, right)
    return f


def parity(variables, seed):
    """Two chains of exclusive ors over the same variables in other orders, one of them negated."""
    f, chance = Formula(), random.Random(seed)
    word = f.word(variables)
    other = word[:]
    chance.shuffle(other)
    left = right = -f.true
    for x, y in zip(word, other):
        left, right = f.xor(left, x), f.xor(right, y)
    f.add(left)
    f.add(-right)
    return f


def by_chance(variables, seed):
    """Three literals a clause, 4.26 clauses a variable."""
    f, chance = Formula(), random.Random(seed)
    f.variables, f.clauses = variables, []
    for _ in range(round(4.26 * variables)):
        chosen = chance.sample(range(1, variables + 1), 3)
        f.add(*[v if chance.random() < 0.5 else -v for v in chosen])
    return f


def pigeons(holes):
    """One pigeon more than there are holes."""
    f = Formula()
    f.variables, f.clauses = (holes + 1) * holes, []
    place = lambda pigeon, hole: pigeon * holes + hole + 1
    for pigeon in range(holes + 1):
        f.add(*[place(pigeon, hole) for hole in range(holes)])
    for hole in range(holes):
        for one, other in itertools.combinations(range(holes + 1), 2):
            f.add(-place(one, hole), -place(other, hole))
    return f


def families():
    yield "adders", [adders(n) for n in (16, 24, 32, 40)]
    yield "multipliers", [multipliers(n) for n in (5, 6, 7)]
    yield "factors", [factors(n, v) for n, v in ((11, 2097143), (12, 8388593), (12, 11145091), (13, 33554393))]
    yield "dividers", [dividers(n) for n in (6, 7, 8)]
    yield "comparators", [comparators(w, n) for w, n in ((32, 16), (64, 8), (64, 24), (128, 8))]
    yield "miters", [miters(n, g, s) for s, (n, g) in enumerate(((12, 160), (14, 200), (16, 240)))]
    yield "chains", [chains(w, n, s) for s, (w, n) in enumerate(((12, 4), (8, 6), (12, 6)))]
    yield "parity", [parity(n, n) for n in (20, 22, 24)]
    yield "chance", [by_chance(200, s) for s in range(1, 9)]
    yield "pigeons", [pigeons(n) for n in (6, 7, 8)]


def main(folder):
    os.makedirs(folder, exist_ok=True)
    for name, formulas in families():
        for number, formula in enumerate(formulas, 1):
            with open(os.path.join(folder, f"{name}-{number}.cnf"), "w") as file:
                file.write(formula.text())


if __name__ == "__main__":
    main(*sys.argv[1:])
