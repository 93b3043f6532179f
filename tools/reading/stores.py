"""The elements of the variables, and what a block does to them. An element is a pair of a variable's number and a
position, so elements in their order are in store order."""
from typing import NamedTuple

from reading.numbers import Fault
from reading.syntax import Literal
from reading.values import Whole

READS, DEFINES = 'reads', 'defines'


class Tedious(Exception):
    """The run is longer than was asked for."""


class Store:
    """The variables of the program; an undefined element is None."""

    def __init__(self, variables):
        self.cells = [
            [None] * variable.size() if variable.given is None else list(variable.given) for variable in variables]

    def get(self, element):
        return self.cells[element[0]][element[1]]

    def put(self, element, number):
        self.cells[element[0]][element[1]] = number


class View:
    """What an iteration sees of a store: its own changes, over what was there before."""

    def __init__(self, opening):
        self.opening = opening
        self.changes = {}

    def get(self, element):
        return self.changes[element] if element in self.changes else self.opening.get(element)

    def put(self, element, number):
        self.changes[element] = number


class Access(NamedTuple):
    action: str
    element: tuple
    line: int


class Patience:
    """How many accesses and statements a run may still take; without a number, any."""

    def __init__(self, steps=None):
        self.steps = steps

    def spend(self):
        if self.steps is not None:
            self.steps -= 1
            if self.steps < 0:
                raise Tedious


class Walker:
    """Carries out assignments over a store, and notes the accesses of an iteration."""

    def __init__(self, store, patience, index=None, accesses=None):
        self.store = store
        self.patience = patience
        self.index = index
        self.accesses = accesses
        self.line = None

    def note(self, action, element):
        self.patience.spend()
        if self.accesses is not None:
            self.accesses.append(Access(action, element, self.line))

    def read(self, variable, position):
        element = variable.number, position
        self.note(READS, element)
        number = self.store.get(element)
        if number is None:
            raise Fault('Undefined')
        return number

    def define(self, variable, position, number):
        element = variable.number, position
        self.note(DEFINES, element)
        self.store.put(element, variable.fitted(number))

    # ---- statements; a fault is told on the line of its statement

    def carry_out(self, statement):
        self.patience.spend()
        self.line = statement.line
        try:
            statement.carried_out_by(self)
        except Fault as fault:
            raise Fault(fault.kind, statement.line) from fault

    def values(self, expressions):
        return [expression.value(self) for expression in expressions]

    def assign(self, variable, places, value):
        number = value.value(self)
        if places is None:
            for position in range(variable.size()):
                self.define(variable, position, number)
        else:
            self.define(variable, variable.position(self.values(places)), number)

    def fill(self, variable, values):
        for position, number in enumerate(self.values(values)):
            self.define(variable, position, number)

    def printed(self, items):
        """What the items of output are: values with their sorts, and characters."""
        found = []
        for item in items:
            if isinstance(item, Whole):
                found += [(item.variable.sort, number) for number in item.values(self)]
            elif isinstance(item, Literal):
                found.append((None, item.text))
            else:
                found.append((item.sort, item.value(self)))
        return found
