"""Clauses of circuits: two adders that shall differ, and a counter that shall reach a number.

Each gate gets a variable, and the clauses that make it the gate's value (Tseitin, 1968).
"""


class Circuit:
    """Gates over variables from 1 on, and the clauses that define them."""

    def __init__(self):
        self.variables = 0
        self.clauses = []

    def fresh(self):
        self.variables += 1
        return self.variables

    def require(self, *literals):
        self.clauses.append(list(literals))

    def both(self, left, right):
        out = self.fresh()
        self.require(-out, left)
        self.require(-out, right)
        self.require(out, -left, -right)
        return out

    def either(self, left, right):
        return -self.both(-left, -right)

    def differ(self, left, right):
        out = self.fresh()
        self.require(-out, left, right)
        self.require(-out, -left, -right)
        self.require(out, -left, right)
        self.require(out, left, -right)
        return out

    def choice(self, condition, then, otherwise):
        return self.either(self.both(condition, then), self.both(-condition, otherwise))

    def fixed(self, value):
        out = self.fresh()
        self.require(out if value else -out)
        return out


def carried(circuit, lefts, rights, carry):
    """The sum of two numbers, lowest bit first, and the carry out, one bit after another."""
    total = []
    for left, right in zip(lefts, rights):
        half = circuit.differ(left, right)
        total.append(circuit.differ(half, carry))
        carry = circuit.either(circuit.both(left, right), circuit.both(half, carry))
    return total, carry


def selected(circuit, lefts, rights, carry, block):
    """The same, where each block is added for both carries in, and the right sum is selected."""
    total = []
    for start in range(0, len(lefts), block):
        parts = lefts[start : start + block], rights[start : start + block]
        without, carry_without = carried(circuit, *parts, circuit.fixed(False))
        within, carry_within = carried(circuit, *parts, circuit.fixed(True))
        total += [circuit.choice(carry, one, zero) for one, zero in zip(within, without)]
        carry = circuit.choice(carry, carry_within, carry_without)
    return total, carry


def adders(bits, block):
    """Two adders, one bit after another and by blocks, whose sums differ. There is no model."""
    circuit = Circuit()
    lefts = [circuit.fresh() for _ in range(bits)]
    rights = [circuit.fresh() for _ in range(bits)]
    carry = circuit.fresh()
    first, first_out = carried(circuit, lefts, rights, carry)
    second, second_out = selected(circuit, lefts, rights, carry, block)
    pairs = zip(first + [first_out], second + [second_out])
    circuit.require(*[circuit.differ(one, other) for one, other in pairs])
    return circuit.clauses


def counter(bits, steps, target):
    """A counter from 0 that goes on by one, or not, at each of so many steps, and ends at a number."""
    circuit = Circuit()
    state = [circuit.fixed(False) for _ in range(bits)]
    for _ in range(steps):
        carry = circuit.fresh()
        following = []
        for bit in state:
            following.append(circuit.differ(bit, carry))
            carry = circuit.both(bit, carry)
        state = following
    for place, bit in enumerate(state):
        circuit.require(bit if target >> place & 1 else -bit)
    return circuit.clauses
