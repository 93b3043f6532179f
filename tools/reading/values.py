"""Expressions whose names and sorts are known, and what they evaluate to. A sort is a kind of INTEGER, or LOGICAL.
`constant` says whether an expression is a constant one, which is evaluated without a walker."""
from dataclasses import dataclass

from reading.numbers import Fault, greatest, least, wrapped

LOGICAL = 'logical'


# ---- what a name means

@dataclass
class Variable:
    """A variable of the program, by its number in declared order. Bounds are pairs; a scalar has none. What is
    given are the values of its elements at the beginning, or None."""
    number: int
    name: str
    sort: object
    bounds: list
    given: list | None = None

    def extents(self):
        return [max(0, high - low + 1) for low, high in self.bounds]

    def size(self):
        elements = 1
        for extent in self.extents():
            elements *= extent
        return elements

    def position(self, subscripts):
        """The place of an element, the first subscript varying fastest."""
        at, step = 0, 1
        for (low, high), extent, subscript in zip(self.bounds, self.extents(), subscripts):
            if not low <= subscript <= high:
                raise Fault('Subscript')
            at += (subscript - low) * step
            step *= extent
        return at

    def subscripts(self, position):
        """The subscripts of the element at a place."""
        found = []
        for (low, _high), extent in zip(self.bounds, self.extents()):
            found.append(low + position % extent)
            position //= extent
        return found

    def fitted(self, number):
        return number if self.sort == LOGICAL else wrapped(self.sort, number)


@dataclass
class Constant:
    sort: object
    value: int


@dataclass
class Index:
    """The index of the loop around, of this kind."""
    name: str
    sort: int


# ---- expressions

@dataclass
class Given:
    """A value that is known without an evaluation."""
    sort: object
    number: int
    constant: bool = True

    def value(self, walker):
        return self.number


@dataclass
class IndexValue:
    index: Index
    constant = False

    @property
    def sort(self):
        return self.index.sort

    def value(self, walker):
        return walker.index


@dataclass
class Element:
    """A reference to a scalar, or to an element of an array."""
    variable: Variable
    subscripts: list
    constant = False

    @property
    def sort(self):
        return self.variable.sort

    def value(self, walker):
        subscripts = [subscript.value(walker) for subscript in self.subscripts]
        return walker.read(self.variable, self.variable.position(subscripts))


@dataclass
class Applied:
    """Operands or arguments, which are evaluated from left to right, and what is made of them. A result that is a
    number is wrapped to its kind."""
    sort: object
    made: object
    parts: list

    @property
    def constant(self):
        return all(part.constant for part in self.parts)

    def value(self, walker):
        number = int(self.made(*[part.value(walker) for part in self.parts]))
        if self.sort == LOGICAL or least(self.sort) <= number <= greatest(self.sort):
            return number
        return wrapped(self.sort, number)


@dataclass
class Whole:
    """A whole array, as an item of output or the argument of SUM, COUNT, ANY and ALL."""
    variable: Variable

    def values(self, walker):
        return [walker.read(self.variable, position) for position in range(self.variable.size())]


@dataclass
class Folded:
    """SUM, COUNT, ANY or ALL of a whole array."""
    sort: object
    made: object
    whole: Whole
    constant = False

    def value(self, walker):
        number = int(self.made(self.whole.values(walker)))
        return number if self.sort == LOGICAL else wrapped(self.sort, number)
