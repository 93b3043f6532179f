"""Random expressions over declared names, each with the rank of its outermost operator."""
from typing import NamedTuple

KINDS = (1, 2, 4, 8)
LOGICAL = 'logical'

EITHER, OR, AND, NOT, RELATION, SUM, TERM, POWER, PRIMARY = range(1, 10)

# An operator with its rank, and the least ranks of its left and its right operand.
ARITHMETIC = {'+': (SUM, SUM, TERM), '-': (SUM, SUM, TERM), '*': (TERM, TERM, POWER), '/': (TERM, TERM, POWER),
              '**': (POWER, PRIMARY, POWER)}
RELATIONS = ('==', '/=', '<', '<=', '>', '>=')
CONNECTIVES = {'.and.': (AND, AND, NOT), '.or.': (OR, OR, AND),
               '.eqv.': (EITHER, EITHER, OR), '.neqv.': (EITHER, EITHER, OR)}

# How often what may meet a fault is written, where the program doesn't lean to it.
RARELY = {'Undefined': 0.005, 'Subscript': 0.003, 'DivideByZero': 0.02, 'ShiftRange': 0.02, 'TooManyIterations': 0.01}

OF_ONE = ('abs', 'not')
OF_TWO = ('sign', 'dim', 'iand', 'ior', 'ieor', 'mod', 'modulo')
DIVIDING = ('mod', 'modulo')
SHIFTS = ('ishft', 'shiftl', 'shiftr', 'shifta')
OF_BITS = ('ibset', 'ibclr')


class Text(NamedTuple):
    rank: int
    text: str


class Declared(NamedTuple):
    """A variable. A scalar has no bounds."""
    name: str
    sort: object
    bounds: list

    def size(self):
        elements = 1
        for low, high in self.bounds:
            elements *= max(0, high - low + 1)
        return elements


class Constant(NamedTuple):
    """A named constant; the value is None where it isn't a plain number."""
    name: str
    sort: object
    value: int | None


class Index(NamedTuple):
    """The index of the loop around, with its kind and its limits, as far as they are known."""
    name: str
    kind: int
    first: int
    last: int


def greatest(kind):
    return 2 ** (8 * kind - 1) - 1


class Expressions:
    """Draws expressions. What has been declared so far, and what is known of it, is kept here."""

    def __init__(self, chance, leaning):
        self.chance = chance
        self.leaning = leaning      # a kind of fault, or 'race', or None
        self.names = set()          # all declared ones: such a one hides a function
        self.constants = []
        self.variables = []
        self.defined = set()        # names of variables that have values, most likely
        self.shunned = set()        # names that aren't read at the moment
        self.index = None
        self.is_constant = False    # only constant expressions are drawn at the moment
        self.nested = 0             # how many subscripts are drawn inside of one another

    # ---- chances

    def happens(self, probability):
        return self.chance.random() < probability

    def risks(self, fault):
        """Whether to write what may meet this fault."""
        return not self.is_constant and self.happens(0.3 if self.leaning == fault else RARELY[fault])

    def pick(self, weighted):
        """One of the keys, by their weights."""
        return self.chance.choices(list(weighted), list(weighted.values()))[0]

    def a_kind(self):
        return self.pick({1: 2, 2: 2, 4: 6, 8: 3})

    def has(self, function):
        return function not in self.names

    def one_of(self, functions):
        """One of the functions that no declared name hides, or None."""
        found = [function for function in functions if self.has(function)]
        return self.chance.choice(found) if found else None

    # ---- writing

    def held(self, text, least):
        """The text as an operand of which at least this rank is asked."""
        if text.rank < least or self.happens(0.05):
            return f'({text.text})'
        return text.text

    def joined(self, mark, ranks, left, right):
        rank, of_left, of_right = ranks
        blank = self.chance.choice(['', ' ', ' '])
        return Text(rank, f'{self.held(left, of_left)}{blank}{mark}{blank}{self.held(right, of_right)}')

    def call(self, name, *args):
        return Text(PRIMARY, f'{name}({self.chance.choice([",", ", "]).join(arg.text for arg in args)})')

    # ---- what is declared

    def readable(self, sort, arrays):
        """Variables of a sort to read: defined ones, unless the fault is risked."""
        found = [variable for variable in self.variables if variable.sort == sort and bool(variable.bounds) == arrays
                 and variable.name not in self.shunned]
        if self.risks('Undefined'):
            return found
        return [variable for variable in found if variable.name in self.defined]

    def elements_of(self, sort):
        return [variable for variable in self.readable(sort, True) if variable.size()]

    # ---- literals

    def suffix(self, kind):
        """A kind behind a number, with its underscore; the default kind needs none."""
        if kind == 4 and self.happens(0.9):
            return ''
        named = [constant.name for constant in self.constants if constant.sort != LOGICAL and constant.value == kind]
        return '_' + (self.chance.choice(named) if named and self.happens(0.5) else str(kind))

    def literal(self, number, kind):
        digits = str(abs(number))
        if self.happens(0.03):
            digits = '00' + digits
        text = digits + self.suffix(kind)
        return Text(SUM, '-' + text) if number < 0 else Text(PRIMARY, text)

    def some_number(self, kind):
        """Mostly a small number, and at times one at the end of the kind's range."""
        draw = self.chance.random()
        if draw < 0.85:
            return self.chance.randint(0, 9)
        if draw < 0.93:
            return self.chance.randint(-100, 100)
        most = greatest(kind)
        return self.chance.choice([most, -most, most - 1, self.chance.randint(0, most)])

    # ---- numbers of a kind

    def number(self, kind, depth=2):
        if depth <= 0 or self.happens(0.2):
            return self.atom(kind)
        forms = {self.arithmetic: 10, self.sign: 1, self.of_functions: 4, self.shift: 2, self.merge: 1, self.mixed: 2,
                 self.converted: 1, self.about: 1}
        return self.pick(forms)(kind, depth - 1)

    def some_kind_of_number(self, depth=2):
        return self.number(self.a_kind(), depth)

    def atom(self, kind):
        """A number without operators."""
        found = [self.literal(self.some_number(kind), kind)]
        found += [Text(PRIMARY, constant.name) for constant in self.constants if constant.sort == kind]
        if not self.is_constant:
            found += [Text(PRIMARY, variable.name) for variable in self.readable(kind, False)] * 2
            if self.index and self.index.kind == kind:
                found += [Text(PRIMARY, self.index.name)] * 3
            arrays = self.elements_of(kind)
            if arrays and self.happens(0.6):
                return self.element(self.chance.choice(arrays))
        return self.chance.choice(found)

    def arithmetic(self, kind, depth):
        mark = self.pick({'+': 4, '-': 4, '*': 3, '/': 1, '**': 1})
        return self.joined(mark, ARITHMETIC[mark], self.number(kind, depth), self.second(mark, kind, depth))

    def mixed(self, kind, depth):
        """Two kinds in one operation: the wider one wins."""
        mark = self.pick({'+': 4, '-': 4, '*': 3, '/': 1, '**': 1})
        narrow = self.chance.choice([other for other in KINDS if other <= kind])
        kinds = self.chance.choice([(kind, narrow), (narrow, kind)])
        return self.joined(mark, ARITHMETIC[mark], self.number(kinds[0], depth), self.second(mark, kinds[1], depth))

    def second(self, mark, kind, depth):
        """The second operand of an operator or a function; one that meets no fault, unless it is risked."""
        if mark in ('/', 'mod', 'modulo'):
            if not self.risks('DivideByZero'):
                return self.literal(self.chance.choice([1, 2, 3, 4, 5, 7, 9, -1, -2, -3]), kind)
            return self.chance.choice([self.zero, self.number])(kind, depth)
        if mark == '**':
            if self.risks('DivideByZero'):
                return self.number(kind, depth)
            return self.literal(self.chance.choice([0, 1, 2, 2, 3, 4, 7, 31]), kind)
        return self.number(kind, depth)

    def zero(self, kind, _depth):
        """A number that is zero, or is in one iteration."""
        if self.index and self.index.kind == kind and self.happens(0.7):
            number = self.chance.randint(self.index.first, max(self.index.first, self.index.last))
            if 0 <= number <= greatest(kind):
                return self.joined('-', ARITHMETIC['-'], Text(PRIMARY, self.index.name), self.literal(number, kind))
        return self.literal(0, kind)

    def sign(self, kind, depth):
        return Text(SUM, self.chance.choice('+---') + self.held(self.number(kind, depth), TERM))

    def of_functions(self, kind, depth):
        name = self.one_of([*OF_ONE, *OF_TWO, 'min', 'max', 'min', 'max', *(['popcnt'] if kind == 4 else [])])
        if name is None:
            return self.atom(kind)
        if name == 'popcnt':
            return self.call(name, self.some_kind_of_number(depth))
        if name in ('min', 'max'):
            return self.call(name, *[self.number(kind, depth) for _ in range(self.chance.choice([2, 2, 3, 4]))])
        if name in OF_ONE:
            return self.call(name, self.number(kind, depth))
        return self.call(name, self.number(kind, depth), self.second(name, kind, depth))

    def shift(self, kind, depth):
        name = self.one_of([*SHIFTS, *OF_BITS])
        if name is None:
            return self.atom(kind)
        if self.risks('ShiftRange'):
            wrong = [self.literal(8 * kind, 4), self.literal(-1, 2), self.literal(65, 8)]
            places = self.chance.choice([self.some_kind_of_number(depth), *wrong])
        else:
            least = -8 * kind if name == 'ishft' else 0
            most = 8 * kind - 1 if name in OF_BITS else 8 * kind
            places = self.literal(self.chance.randint(least, most), self.a_kind())
        return self.call(name, self.number(kind, depth), places)

    def merge(self, kind, depth):
        if not self.has('merge'):
            return self.atom(kind)
        return self.call('merge', self.number(kind, depth), self.number(kind, depth), self.truth(depth))

    def converted(self, kind, depth):
        if not self.has('int'):
            return self.atom(kind)
        given = self.some_kind_of_number(depth)
        if kind == 4 and self.happens(0.5):
            return self.call('int', given)
        keyword = self.chance.choice(['', 'kind=', 'kind = '])
        return self.call('int', given, Text(PRIMARY, keyword + self.kind_text(kind)))

    def kind_text(self, kind):
        """A kind, as a constant expression."""
        named = [constant.name for constant in self.constants if constant.sort != LOGICAL and constant.value == kind]
        return self.chance.choice([str(kind), f'{kind}_8', *named, *named])

    def about(self, kind, depth):
        """What is asked of a kind or an array, or SUM or COUNT of one."""
        forms = [('huge', self.unevaluated), ('bit_size', self.unevaluated)]
        if not self.is_constant:
            forms += [('sum', self.whole)] * 3
            if kind == 4:
                forms += [('kind', self.anything), *[('count', self.whole_truths)] * 3]
                forms += [(name, self.array_asked) for name in ('size', 'lbound', 'ubound')]
        forms = [form for form in forms if self.has(form[0])]
        if not forms:
            return self.atom(kind)
        name, drawn = self.chance.choice(forms)
        argument = drawn(kind, depth)
        if argument is None:
            return self.atom(kind)
        if drawn == self.array_asked and (name != 'size' or self.happens(0.6)):
            array = next(variable for variable in self.variables if variable.name == argument.text)
            return self.call(name, argument, self.literal(self.chance.randint(1, len(array.bounds)), self.a_kind()))
        return self.call(name, argument)

    def whole(self, sort, _depth):
        arrays = self.readable(sort, True)
        return Text(PRIMARY, self.chance.choice(arrays).name) if arrays else None

    def whole_truths(self, _kind, depth):
        return self.whole(LOGICAL, depth)

    def array_asked(self, _kind, _depth):
        arrays = [variable for variable in self.variables if variable.bounds]
        return Text(PRIMARY, self.chance.choice(arrays).name) if arrays else None

    def anything(self, _kind, depth):
        return self.some_kind_of_number(depth) if self.happens(0.8) else self.truth(depth)

    def unevaluated(self, kind, depth):
        """An argument of which the kind alone is asked, so it may be undefined or out of its bounds."""
        found = [variable for variable in self.variables if variable.sort == kind and variable.name not in self.shunned]
        if not found or self.is_constant or self.happens(0.5):
            return self.number(kind, depth)
        variable = self.chance.choice(found)
        subscripts = ','.join(['99'] * len(variable.bounds))
        return Text(PRIMARY, f'{variable.name}({subscripts})' if variable.bounds else variable.name)

    # ---- truths

    def truth(self, depth=2):
        if depth <= 0 or self.happens(0.15):
            return self.truth_atom()
        forms = {self.relation: 6, self.negation: 2, self.connected: 5, self.merged_truth: 1, self.folded_truth: 2}
        return self.pick(forms)(depth - 1)

    def truth_atom(self):
        found = [Text(PRIMARY, self.chance.choice(['.true.', '.false.']))]
        found += [Text(PRIMARY, constant.name) for constant in self.constants if constant.sort == LOGICAL]
        if not self.is_constant:
            found += [Text(PRIMARY, variable.name) for variable in self.readable(LOGICAL, False)] * 2
            arrays = self.elements_of(LOGICAL)
            if arrays and self.happens(0.6):
                return self.element(self.chance.choice(arrays))
        return self.chance.choice(found)

    def relation(self, depth):
        left, right = self.some_kind_of_number(depth), self.some_kind_of_number(depth)
        return self.joined(self.chance.choice(RELATIONS), (RELATION, SUM, SUM), left, right)

    def negation(self, depth):
        return Text(NOT, f'.not.{self.chance.choice(["", " "])}{self.held(self.truth(depth), RELATION)}')

    def connected(self, depth):
        mark = self.chance.choice(list(CONNECTIVES))
        return self.joined(mark, CONNECTIVES[mark], self.truth(depth), self.truth(depth))

    def merged_truth(self, depth):
        if not self.has('merge'):
            return self.truth_atom()
        return self.call('merge', self.truth(depth), self.truth(depth), self.truth(depth))

    def folded_truth(self, _depth):
        name = self.one_of(['any', 'all'])
        arrays = self.readable(LOGICAL, True)
        if name is None or not arrays or self.is_constant:
            return self.truth_atom()
        return self.call(name, Text(PRIMARY, self.chance.choice(arrays).name))

    # ---- elements

    def element(self, array):
        self.nested += 1
        text = f'{array.name}({self.subscripts(array)})'
        self.nested -= 1
        return Text(PRIMARY, text)

    def subscripts(self, array):
        """Subscripts of an array. In a loop the index is in one of them, at a dimension that is long enough."""
        places = [place for place, (low, high) in enumerate(array.bounds) if self.index and self.fits(low, high)]
        place_of_index = self.chance.choice(places) if places else None
        return self.chance.choice([',', ', ']).join(
            self.subscript(low, high, place == place_of_index) for place, (low, high) in enumerate(array.bounds))

    def fits(self, low, high):
        """Whether the index takes no more values than there are subscripts."""
        return self.index.last - self.index.first <= high - low

    def subscript(self, low, high, with_index):
        plain = self.nested > 2
        if self.risks('Subscript'):
            outside = self.literal(self.chance.choice([low - 1, high + 1]), 8)
            return (outside if plain or self.happens(0.7) else self.some_kind_of_number(1)).text
        if with_index:
            return self.at_index(low)
        if plain or self.happens(0.85):
            number = self.chance.randint(low, high)
            kind = next(kind for kind in (self.a_kind(), 4, 8) if abs(number) <= greatest(kind))
            return self.literal(number, kind).text
        return self.clamped(low, high)

    def at_index(self, low):
        """The index, moved so that it goes over the dimension."""
        shift = low - self.index.first
        if self.happens(0.3 if self.leaning == 'race' else 0.02):
            shift += self.chance.choice([-1, 1])
        if not shift:
            return self.index.name
        kind = next(kind for kind in (self.index.kind, 4, 8) if abs(shift) <= greatest(kind))
        number = self.literal(abs(shift), kind)
        return self.joined('-' if shift < 0 else '+', ARITHMETIC['+'], Text(PRIMARY, self.index.name), number).text

    def clamped(self, low, high):
        """Some number, brought into the bounds."""
        if not (self.has('min') and self.has('max')):
            return self.literal(low, 8).text
        kind = next(kind for kind in (self.a_kind(), 4, 8) if max(abs(low), abs(high)) <= greatest(kind))
        least = self.call('min', self.literal(high, kind), self.number(kind, 1))
        return self.call('max', self.literal(low, kind), least).text
