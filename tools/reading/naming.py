"""The declared names of a program, its constants, and the expressions that are made of them."""
from reading import numbers, syntax
from reading.numbers import KINDS, Fault
from reading.source import Refused
from reading.values import LOGICAL, Applied, Constant, Element, Folded, Given, Index, IndexValue, Variable, Whole

MOST_ELEMENTS, MOST_DIMENSIONS = 4_194_304, 7

NAMED_KINDS = {'int8': 1, 'int16': 2, 'int32': 4, 'int64': 8}
INQUIRIES = ('huge', 'bit_size', 'kind')
ABOUT_ARRAYS = ('size', 'lbound', 'ubound')
FOLDED = {'sum': sum, 'count': sum, 'any': any, 'all': all}
FUNCTIONS = {*numbers.OPERATIONS, 'int', 'merge', *INQUIRIES, *ABOUT_ARRAYS, *FOLDED}


class Names:
    """The names that are declared so far, and inside of a loop its index."""

    def __init__(self):
        self.meanings = {}
        self.variables = []
        self.elements = 0

    def inside(self, index):
        """The names inside of a loop with this index."""
        names = Names()
        names.meanings = {**self.meanings, index.name: index}
        names.variables = self.variables
        return names

    def declare(self, name, meaning):
        if name in self.meanings:
            raise Refused(f'{name} is declared twice')
        self.meanings[name] = meaning

    # ---- declarations

    def use(self, statement):
        if statement.module != 'iso_fortran_env':
            raise Refused(f'there is no module {statement.module}')
        for name in statement.names:
            if name not in NAMED_KINDS:
                raise Refused(f'{name} is not in the module')
            self.declare(name, Constant(4, NAMED_KINDS[name]))

    def declared(self, statement):
        """The declaration of some names."""
        sort = LOGICAL if statement.spec.logical else 4
        if statement.spec.kind is not None:
            sort = self.kind_of(self.constant(statement.spec.kind))
        for entity in statement.entities:
            bounds = statement.dimension if entity.bounds is None else entity.bounds
            if statement.parameter:
                if bounds is not None or entity.value is None:
                    raise Refused(f'{entity.name} is no scalar with a value')
                self.declare(entity.name, Constant(sort, self.initial(sort, entity.value)))
            else:
                self.variable(entity, sort, [self.bound(*bound) for bound in bounds or []])

    def variable(self, entity, sort, bounds):
        variable = Variable(len(self.variables), entity.name, sort, bounds)
        self.elements += variable.size()
        if len(bounds) > MOST_DIMENSIONS or self.elements > MOST_ELEMENTS:
            raise Refused(f'{entity.name} has too many dimensions, or there are too many elements')
        if entity.values is not None:
            if not bounds or len(entity.values) != variable.size():
                raise Refused(f'{entity.name} has another number of elements')
            variable.given = [self.initial(sort, value) for value in entity.values]
        elif entity.value is not None:
            variable.given = [self.initial(sort, entity.value)] * variable.size()
        self.declare(entity.name, variable)
        self.variables.append(variable)

    def bound(self, low, high):
        return 1 if low is None else self.constant_number(low), self.constant_number(high)

    def initial(self, sort, tree):
        given = self.constant(tree)
        if (given.sort == LOGICAL) != (sort == LOGICAL):
            raise Refused('an initial value has another type')
        return given.number if sort == LOGICAL else numbers.wrapped(sort, given.number)

    # ---- constants

    def constant(self, tree):
        """The value of a constant expression."""
        found = self.expression(tree)
        if not found.constant:
            raise Refused('an expression is no constant one')
        try:
            return Given(found.sort, found.value(None))
        except Fault as fault:
            raise Refused('a constant expression has no value') from fault

    def constant_number(self, tree):
        return number_in(self.constant(tree)).number

    def kind_of(self, given):
        if given.sort == LOGICAL or given.number not in KINDS:
            raise Refused('there is no such kind')
        return given.number

    def kind_named(self, text):
        """The kind that stands behind a number."""
        if text is None:
            return 4
        if text.isdigit():
            return self.kind_of(Given(4, int(text[-20:])))
        meaning = self.meanings.get(text)
        if not isinstance(meaning, Constant):
            raise Refused(f'{text} is no named constant')
        return self.kind_of(Given(meaning.sort, meaning.value))

    # ---- expressions

    def expression(self, tree):
        match tree:
            case syntax.Number():
                kind, number = self.kind_named(tree.kind), int(tree.digits)
                if number > numbers.greatest(kind):
                    raise Refused(f'{number} is not in the range of its kind')
                return Given(kind, number)
            case syntax.Truth():
                return Given(LOGICAL, int(tree.value))
            case syntax.Paren():
                return self.expression(tree.inside)
            case syntax.Name():
                return self.scalar(tree.name)
            case syntax.Refer():
                return self.element(tree) if tree.name in self.meanings else self.function(tree)
            case syntax.Unary():
                return self.led(tree.mark, self.expression(tree.right))
            case syntax.Binary():
                return self.joined(tree.mark, self.expression(tree.left), self.expression(tree.right))
        raise AssertionError(tree)

    def number(self, tree):
        """An expression that is an INTEGER."""
        return number_in(self.expression(tree))

    def scalar(self, name):
        match self.meanings.get(name):
            case Variable(bounds=[]) as variable:
                return Element(variable, [])
            case Constant(sort=sort, value=value):
                return Given(sort, value)
            case Index() as index:
                return IndexValue(index)
        raise Refused(f'{name} is no scalar')

    def array(self, tree):
        """The array that an argument names."""
        meaning = self.meanings.get(tree.name) if isinstance(tree, syntax.Name) else None
        if not isinstance(meaning, Variable) or not meaning.bounds:
            raise Refused('an argument is no array')
        return meaning

    def element(self, tree):
        meaning = self.meanings[tree.name]
        if tree.keyed or not has_elements(meaning, tree.args):
            raise Refused(f'{tree.name} has no such elements')
        return Element(meaning, [self.number(subscript) for subscript in tree.args])

    def led(self, mark, right):
        """An operand with an operator in front."""
        if mark == '.not.':
            return Applied(LOGICAL, lambda a: 1 - a, [truth_in(right)])
        return Applied(number_in(right).sort, lambda a: -a if mark == '-' else a, [right])

    def joined(self, mark, left, right):
        """Two operands with an operator between."""
        if mark in numbers.CONNECTIVES:
            return Applied(LOGICAL, numbers.CONNECTIVES[mark], [truth_in(left), truth_in(right)])
        parts = [number_in(left), number_in(right)]
        if mark in numbers.RELATIONS:
            return Applied(LOGICAL, numbers.RELATIONS[mark], parts)
        kind = max(left.sort, right.sort)
        return Applied(kind, lambda a, b: numbers.OPERATORS[mark](kind, a, b), parts)

    # ---- functions of the language

    def function(self, tree):
        name, args = tree.name, tree.args
        if name not in FUNCTIONS:
            raise Refused(f'{name} is not declared')
        if tree.keyed and (name != 'int' or tree.keyed != {1}):
            raise Refused('kind = stands in front of an argument')
        if name in ABOUT_ARRAYS:
            return self.about_array(name, args)
        if name in FOLDED:
            return self.folded(name, args)
        if name == 'int':
            return self.converted(args)
        return called(name, [self.expression(arg) for arg in args])

    def converted(self, args):
        if len(args) not in (1, 2):
            raise Refused('INT has one argument or two')
        kind = self.kind_of(self.constant(args[1])) if len(args) == 2 else 4
        return Applied(kind, lambda a: a, [self.number(args[0])])

    def folded(self, name, args):
        if len(args) != 1:
            raise Refused(f'{name} has one argument')
        array = self.array(args[0])
        if (name == 'sum') == (array.sort == LOGICAL):
            raise Refused(f'{name} is not of this type')
        sort = {'sum': array.sort, 'count': 4}.get(name, LOGICAL)
        return Folded(sort, FOLDED[name], Whole(array))

    def about_array(self, name, args):
        """SIZE, LBOUND and UBOUND. A dimension without elements has the bounds 1 and 0."""
        if len(args) not in ((1, 2) if name == 'size' else (2,)):
            raise Refused(f'{name} has another number of arguments')
        array = self.array(args[0])
        if len(args) == 1:
            return Given(4, array.size(), False)
        dimension = self.constant_number(args[1])
        if not 1 <= dimension <= len(array.bounds):
            raise Refused('there is no such dimension')
        extent, (low, high) = array.extents()[dimension - 1], array.bounds[dimension - 1]
        number = {'size': extent, 'lbound': low if extent else 1, 'ubound': high if extent else 0}[name]
        return Given(4, numbers.wrapped(4, number), False)


def has_elements(meaning, subscripts):
    """Whether it is an array with so many dimensions."""
    return isinstance(meaning, Variable) and meaning.bounds and len(meaning.bounds) == len(subscripts)


def number_in(expression):
    if expression.sort == LOGICAL:
        raise Refused('a truth stands where a number is asked')
    return expression


def truth_in(expression):
    if expression.sort != LOGICAL:
        raise Refused('a number stands where a truth is asked')
    return expression


def called(name, args):
    """A function of values, which are evaluated, or of their kind."""
    sorts = [arg.sort for arg in args]
    if name == 'merge':
        if len(args) != 3 or sorts[0] != sorts[1] or sorts[2] != LOGICAL:
            raise Refused('MERGE has other arguments')
        return Applied(sorts[0], lambda a, b, mask: a if mask else b, args)
    if name in INQUIRIES:
        return about_kind(name, args)
    if LOGICAL in sorts:
        raise Refused(f'{name} is of numbers')
    takes = len(args) == 1 if name in numbers.OF_ONE else len(args) > 1 if name in numbers.OF_MANY else len(args) == 2
    if not takes:
        raise Refused(f'{name} has another number of arguments')
    if name not in numbers.OF_PLACES and len(set(sorts)) > 1:
        raise Refused(f'the arguments of {name} have several kinds')
    kind, made = sorts[0], numbers.OPERATIONS[name]
    return Applied(4 if name == 'popcnt' else kind, lambda *given: made(kind, *given), args)


def about_kind(name, args):
    """HUGE, BIT_SIZE and KIND of an argument, which isn't evaluated."""
    if len(args) != 1 or (args[0].sort == LOGICAL and name != 'kind'):
        raise Refused(f'{name} has other arguments')
    kind = 4 if args[0].sort == LOGICAL else args[0].sort
    number = {'huge': numbers.greatest(kind), 'bit_size': numbers.bits(kind), 'kind': kind}[name]
    return Given(4 if name == 'kind' else kind, number, args[0].constant)
