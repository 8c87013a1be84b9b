#!/usr/bin/env python3
"""Writes the formulas of this folder, none of which has a model. The gates are Tseitin's clauses."""
import random


class Circuit:
    def __init__(self):
        self.variables = 0
        self.clauses = []

    def input(self):
        self.variables += 1
        return self.variables

    def word(self, bits):
        return [self.input() for _ in range(bits)]

    def xor(self, x, y):
        z = self.input()
        self.clauses += [[-z, x, y], [-z, -x, -y], [z, -x, y], [z, x, -y]]
        return z

    def conjunction(self, x, y):
        z = self.input()
        self.clauses += [[-z, x], [-z, y], [z, -x, -y]]
        return z

    def either(self, x, y):
        return -self.conjunction(-x, -y)

    def majority(self, x, y, c):
        return self.either(self.conjunction(x, y), self.conjunction(c, self.either(x, y)))

    def sum(self, xs, ys, carry):
        """The bits of a sum, lowest first, and the carry out of it."""
        bits = []
        for x, y in zip(xs, ys):
            half = self.xor(x, y)
            if carry is None:
                bits.append(half)
                carry = self.conjunction(x, y)
            else:
                bits.append(self.xor(half, carry))
                carry = self.majority(x, y, carry)
        return bits, carry

    def difference(self, xs, ys):
        """x - y as x + ~y + 1, and the carry: whether y isn't above x."""
        one = self.input()
        self.clauses.append([one])
        return self.sum(xs, [-y for y in ys], one)

    def differ(self, pairs):
        """The formula is true where one of the pairs differs."""
        self.clauses.append([self.xor(x, y) for x, y in pairs])


def sums(bits):
    """x + y and y + x."""
    c = Circuit()
    x, y = c.word(bits), c.word(bits)
    c.differ(zip(c.sum(x, y, None)[0], c.sum(y, x, None)[0]))
    return c


def orders(bits):
    """x + (y + z) and (x + y) + z."""
    c = Circuit()
    x, y, z = c.word(bits), c.word(bits), c.word(bits)
    left = c.sum(x, c.sum(y, z, None)[0], None)[0]
    right = c.sum(c.sum(x, y, None)[0], z, None)[0]
    c.differ(zip(left, right))
    return c


def compare(bits):
    """x below y, by the carry of x - y; and y above x, by the carry of y - x and whether a bit of it is 1."""
    c = Circuit()
    x, y = c.word(bits), c.word(bits)
    _, at_least = c.difference(x, y)
    difference, at_most = c.difference(y, x)
    some = difference[0]
    for bit in difference[1:]:
        some = c.either(some, bit)
    c.differ([(-at_least, c.conjunction(at_most, some))])
    return c


def signed_compare(bits):
    """The same for signed numbers: the sign of the difference against its overflow."""
    c = Circuit()
    x, y = c.word(bits), c.word(bits)

    def below(one, other):
        difference, _ = c.difference(one, other)
        overflow = c.conjunction(c.xor(one[-1], other[-1]), c.xor(one[-1], difference[-1]))
        return c.xor(difference[-1], overflow), difference

    less, _ = below(x, y)
    greater_or_equal, difference = below(y, x)
    some = difference[0]
    for bit in difference[1:]:
        some = c.either(some, bit)
    c.differ([(less, c.conjunction(-greater_or_equal, some))])
    return c


def negation(bits):
    """x - y and x + (~y + 1)."""
    c = Circuit()
    x, y = c.word(bits), c.word(bits)
    zero = c.input()
    c.clauses.append([-zero])
    negated = c.difference([zero] * bits, y)[0]
    c.differ(zip(c.difference(x, y)[0], c.sum(x, negated, None)[0]))
    return c


def pigeons(holes):
    """One pigeon more than holes."""
    c = Circuit()
    at = [[c.input() for _ in range(holes)] for _ in range(holes + 1)]
    c.clauses += at
    for hole in range(holes):
        for one in range(holes + 1):
            for other in range(one):
                c.clauses.append([-at[one][hole], -at[other][hole]])
    return c


def random_clauses(variables, count, seed):
    """Clauses of three different variables, each negated with probability one half."""
    random.seed(seed)
    c = Circuit()
    c.variables = variables
    for _ in range(count):
        drawn = random.sample(range(1, variables + 1), 3)
        c.clauses.append([v if random.random() < 0.5 else -v for v in drawn])
    return c


def write(name, circuit):
    with open(name + ".cnf", "w") as out:
        out.write("p cnf %d %d\n" % (circuit.variables, len(circuit.clauses)))
        for clause in circuit.clauses:
            out.write(" ".join(map(str, clause)) + " 0\n")


if __name__ == "__main__":
    write("sums-32", sums(32))
    write("orders-4", orders(4))
    write("negation-32", negation(32))
    write("compare-32", compare(32))
    write("signed-compare-32", signed_compare(32))
    for holes in (5, 6, 7):
        write("pigeons-%d" % (holes + 1), pigeons(holes))
    for variables, count, seed in ((100, 440, 7), (150, 660, 2), (150, 660, 7)):
        write("random-%d-%d" % (variables, seed), random_clauses(variables, count, seed))
