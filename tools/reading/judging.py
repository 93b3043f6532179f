"""The verdict on a loop DO CONCURRENT of one index, whose variables all are of unspecified locality."""
from reading.numbers import Fault, wrapped
from reading.stores import DEFINES, READS, View, Walker

MOST_ITERATIONS = 4_194_304


class Stopped(Exception):
    """A loop ends the run with this line of the log and this status."""

    def __init__(self, log, status):
        super().__init__(log, status)
        self.log = log
        self.status = status


class Iteration:
    """What an iteration did: its accesses, and the fault that ended it, if one did."""

    def __init__(self, loop, value, store, patience):
        self.value = value
        self.accesses = []
        self.fault = None
        walker = Walker(store, patience, value, self.accesses)
        try:
            for statement in loop.block:
                walker.carry_out(statement)
        except Fault as fault:
            self.fault = fault

    def touched(self):
        return {access.element for access in self.accesses if access.action == DEFINES}

    def exposed(self):
        """The elements that it reads before it has defined them."""
        found, before = set(), set()
        for action, element, _line in self.accesses:
            if action == DEFINES:
                before.add(element)
            elif element not in before:
                found.add(element)
        return found


class Judge:
    """Judges one loop that the run has reached with a store."""

    def __init__(self, loop, variables, store, patience):
        self.loop = loop
        self.variables = variables
        self.store = store
        self.patience = patience

    def iteration(self, value, store):
        return Iteration(self.loop, value, store, self.patience)

    def values(self):
        """The values of the index. A fault of the header belongs to no iteration."""
        kind, walker = self.loop.index.sort, Walker(self.store, self.patience)
        try:
            first, last = (wrapped(kind, limit.value(walker)) for limit in (self.loop.first, self.loop.last))
            if last - first + 1 > MOST_ITERATIONS:
                raise Fault('TooManyIterations')
        except Fault as fault:
            raise Fault(fault.kind, self.loop.line) from fault
        return range(first, last + 1)

    def judge(self):
        """Goes on with the closing store, or stops."""
        values = self.values()
        alone = []
        for value in values:
            self.patience.spend()
            iteration = self.iteration(value, View(self.store))
            if iteration.fault:
                raise Stopped(f'fault: {iteration.fault.kind}: iteration ({value}): line {iteration.fault.line}\n', 3)
            alone.append(iteration)
        touchers, readers = by_element(alone, Iteration.touched), by_element(alone, Iteration.exposed)
        for element in sorted(touchers):
            both = {*touchers[element], *readers.get(element, [])}
            if element in readers and len(both) > 1:
                first, second = pair(touchers[element], readers[element])
                raise Stopped(self.race(values[first], values[second]), 2)
        for value in values:
            self.iteration(value, self.store)
        for element, found in touchers.items():
            if len(found) > 1:
                self.store.put(element, None)

    def race(self, value, other):
        """The line of the log, by the first break where the two are run one after the other."""
        store = View(self.store)
        first, second = self.iteration(value, store), self.iteration(other, store)
        touched, exposed, before = first.touched(), first.exposed(), set()
        for action, element, line in second.accesses:
            beside = None
            if action == READS and element in touched and element not in before:
                beside = DEFINES
            elif action == DEFINES and element in exposed:
                beside = READS
            if beside:
                at = next(access.line for access in first.accesses if access[:2] == (beside, element))
                return (f'race: {self.name_of(element)}: iteration ({value}) {beside} at line {at}, '
                        f'iteration ({other}) {action} at line {line}\n')
            if action == DEFINES:
                before.add(element)
        raise AssertionError('a pair without a break')

    def name_of(self, element):
        variable = self.variables[element[0]]
        if not variable.bounds:
            return variable.name
        return f'{variable.name}({",".join(map(str, variable.subscripts(element[1])))})'


def by_element(iterations, elements):
    """For each element the numbers of the iterations that have it among theirs, in ascending order."""
    found = {}
    for number, iteration in enumerate(iterations):
        for element in elements(iteration):
            found.setdefault(element, []).append(number)
    return found


def pair(touching, reading):
    """The two iterations that are named for an element that clashes."""
    if reading[0] != touching[0]:
        return touching[0], reading[0]
    if reading[-1] != touching[0]:
        return touching[0], reading[-1]
    return touching[-1], reading[0]
