"""The kinds of INTEGER, wrapping, and the operations. A truth is the number 1 or 0."""

KINDS = (1, 2, 4, 8)    # each is a number of bytes


class Fault(Exception):
    """A statement meets a fault of this kind. The line is that of the statement, which is known further out."""

    def __init__(self, kind, line=None):
        super().__init__(kind, line)
        self.kind = kind
        self.line = line


def bits(kind):
    return 8 * kind


def greatest(kind):
    return 2 ** (bits(kind) - 1) - 1


def least(kind):
    return -greatest(kind) - 1


def wrapped(kind, number):
    """The number of the kind that differs from this one by a multiple of 2 to the number of bits."""
    return (number - least(kind)) % 2 ** bits(kind) + least(kind)


def pattern(kind, number):
    """The bits of a number, read without a sign."""
    return number % 2 ** bits(kind)


# ---- exact operations, before they are wrapped

def quotient(kind, a, b):
    if b == 0:
        raise Fault('DivideByZero')
    return abs(a) // abs(b) * (1 if (a < 0) == (b < 0) else -1)


def remainder(kind, a, b):
    return a - b * quotient(kind, a, b)


def modulo(kind, a, b):
    if b == 0:
        raise Fault('DivideByZero')
    return a - b * (a // b)


def power(kind, a, b):
    if b >= 0:
        return pow(a, b, 2 ** bits(kind))
    if a == 0:
        raise Fault('DivideByZero')
    return {1: 1, -1: 1 if b % 2 == 0 else -1}.get(a, 0)


def places(kind, number, most):
    if not 0 <= number <= most:
        raise Fault('ShiftRange')
    return number


def shifted_left(kind, a, b):
    return a * 2 ** places(kind, b, bits(kind))


def shifted_right(kind, a, b):
    return pattern(kind, a) // 2 ** places(kind, b, bits(kind))


def shifted(kind, a, b):
    return shifted_left(kind, a, b) if b >= 0 else shifted_right(kind, a, -b)


def with_bit(kind, a, b):
    return pattern(kind, a) | 2 ** places(kind, b, bits(kind) - 1)


def without_bit(kind, a, b):
    return pattern(kind, a) & ~(2 ** places(kind, b, bits(kind) - 1))


OPERATORS = {
    '+': lambda kind, a, b: a + b,
    '-': lambda kind, a, b: a - b,
    '*': lambda kind, a, b: a * b,
    '/': quotient,
    '**': power,
}

# Functions of one number, of two, of two or more, and of a number and a number of places.
OF_ONE = {
    'abs': lambda kind, a: abs(a),
    'not': lambda kind, a: -1 - a,
    'popcnt': lambda kind, a: pattern(kind, a).bit_count(),
}
OF_TWO = {
    'mod': remainder,
    'modulo': modulo,
    'sign': lambda kind, a, b: abs(a) if b >= 0 else -abs(a),
    'dim': lambda kind, a, b: max(a - b, 0),
    'iand': lambda kind, a, b: a & b,
    'ior': lambda kind, a, b: a | b,
    'ieor': lambda kind, a, b: a ^ b,
}
OF_MANY = {
    'min': lambda kind, *given: min(given),
    'max': lambda kind, *given: max(given),
}
OF_PLACES = {
    'ishft': shifted,
    'shiftl': shifted_left,
    'shiftr': shifted_right,
    'shifta': lambda kind, a, b: a >> places(kind, b, bits(kind)),
    'ibset': with_bit,
    'ibclr': without_bit,
}

OPERATIONS = {**OF_ONE, **OF_TWO, **OF_MANY, **OF_PLACES}

RELATIONS = {
    '==': lambda a, b: a == b,
    '/=': lambda a, b: a != b,
    '<': lambda a, b: a < b,
    '<=': lambda a, b: a <= b,
    '>': lambda a, b: a > b,
    '>=': lambda a, b: a >= b,
}

CONNECTIVES = {
    '.and.': lambda a, b: a & b,
    '.or.': lambda a, b: a | b,
    '.eqv.': lambda a, b: int(a == b),
    '.neqv.': lambda a, b: int(a != b),
}
