"""Random programs, as lists of statements."""
from drawing.expressions import KINDS, LOGICAL, Constant, Declared, Expressions, Index, greatest

PLAIN_NAMES = [*'abcdefghijklmnoqrstuvwxyz', 'left', 'right', 'total', 'row_1', 'x2', 'kind_of', 'only', 'none',
               'concurrent', 'local', 'result', 'default', 'intrinsic', 'dimension', 'n' * 63]
HIDING_NAMES = ['sum', 'size', 'kind', 'abs', 'max', 'int', 'mod', 'any', 'merge', 'huge', 'count', 'iand', 'lbound']
MODULE_NAMES = {'int8': 1, 'int16': 2, 'int32': 4, 'int64': 8}
PIECES = ["it''s", 'a & b', '; ', '! no comment', 'x = ', 'Abc', '', '.true.', 'do', '""', '1 2', '\xe9\xff']

LONGEST_LIST = 32

FAULTS = ('Undefined', 'Subscript', 'DivideByZero', 'ShiftRange', 'TooManyIterations')


class Drawer(Expressions):
    """Draws one program."""

    def __init__(self, chance, leaning=None):
        super().__init__(chance, leaning)
        self.statements = []
        self.spare = [*chance.sample(PLAIN_NAMES, 16), *chance.sample(HIDING_NAMES, 2)]
        self.extent = chance.choice([2, 3, 4, 5, 3, 4, 5, 3, 4, 30])

    def new_name(self):
        place = self.pick({0: 12, len(self.spare) - 1: 1})
        name = self.spare.pop(place)
        self.names.add(name)
        return name

    def program(self):
        name = self.chance.choice(['p', 'main', 'a_program', self.spare[0]])
        self.front(name)
        self.begin()
        loops = self.pick({0: 1, 1: 2, 2: 2, 3: 1})
        plan = ['loop'] * loops + ['other'] * self.chance.randint(1, 7)
        self.chance.shuffle(plan)
        for part in plan:
            if part == 'loop':
                self.loop()
            else:
                self.statement()
        self.statements.append(self.chance.choice(['end', 'end program', f'end program {name}', f'end program {name}']))
        return self.statements

    # ---- declarations

    def front(self, name):
        self.statements.append(f'program {name}')
        if self.happens(0.4):
            self.use()
        if self.happens(0.4):
            self.statements.append('implicit none')
        for _ in range(self.chance.choice([0, 0, 1, 1, 2])):
            self.constant()
        kind = self.pick({1: 1, 2: 1, 4: 6, 8: 2})
        self.variable_statement(kind, [Declared(self.new_name(), kind, [])])
        for _ in range(self.chance.randint(2, 5)):
            self.variable_statement()

    def use(self):
        names = self.chance.sample(list(MODULE_NAMES), self.chance.randint(1, 3))
        before = self.chance.choice(['use, intrinsic :: ', 'use :: ', 'use '])
        self.statements.append(f'{before}iso_fortran_env, only: {", ".join(names)}')
        for name in names:
            self.names.add(name)
            self.constants.append(Constant(name, 4, MODULE_NAMES[name]))

    def constant_text(self, draw, *given):
        """A constant expression."""
        self.is_constant = True
        text = draw(*given).text
        self.is_constant = False
        return text

    def constant(self):
        """A statement with named constants, each of a number or an expression."""
        sort = self.pick({LOGICAL: 1, 4: 4, 1: 1, 2: 1, 8: 1})
        made = []
        head = f'{self.type_text(sort)}, parameter :: '
        for _ in range(self.chance.choice([1, 1, 2])):
            value = None
            if sort == LOGICAL:
                text = self.constant_text(self.truth, 2)
            elif self.happens(0.6):
                value = self.chance.choice([1, 2, 3, 4, 4, 5, 8])
                text = self.literal(value, sort).text
            else:
                text = self.constant_text(self.some_kind_of_number, 2)
            name = self.new_name()
            made.append(f'{name} = {text}')
            self.constants.append(Constant(name, sort, value))
        self.statements.append(head + ', '.join(made))

    def type_text(self, sort):
        if sort == LOGICAL:
            return 'logical'
        if sort == 4 and self.happens(0.6):
            return 'integer'
        return f'integer({self.chance.choice(["", "", "kind=", "kind = "])}{self.kind_text(sort)})'

    def bound_number(self, number):
        """A bound of this value: a number, or a constant with it."""
        named = [constant.name for constant in self.constants if constant.sort != LOGICAL and constant.value == number]
        if named and self.happens(0.7):
            return self.chance.choice(named)
        kind = 4 if abs(number) <= greatest(4) else 8
        return self.literal(number, self.chance.choice([kind, kind, 8])).text

    def bounds(self):
        """The bounds of an array: mostly one dimension, short, from 1 on."""
        rank = self.pick({1: 12, 2: 5, 3: 1, 7: 0.5})
        found = []
        for _ in range(rank):
            most = self.extent if rank == 1 else 3 if rank == 2 else 2 if len(found) < 3 else 1
            low = self.pick({1: 10, 0: 2, -1: 1, 2: 1, -self.extent: 1, 3_000_000_000: 0.2})
            extent = self.chance.choice([most, most, self.chance.randint(1, most)])
            found.append((low, low + extent - 1))
        if self.happens(0.04):
            found[self.chance.randrange(rank)] = self.chance.choice([(1, 0), (5, 4), (3, -9), (0, -1)])
        return found

    def bounds_text(self, bounds):
        parts = []
        for low, high in bounds:
            if low == 1 and self.happens(0.8):
                parts.append(self.bound_number(high))
            else:
                parts.append(f'{self.bound_number(low)}{self.chance.choice([":", " : "])}{self.bound_number(high)}')
        return ', '.join(parts)

    def variable_statement(self, sort=None, entities=None):
        """A statement that declares a few variables of one sort."""
        sort = sort or self.pick({4: 6, 1: 1, 2: 1, 8: 2, LOGICAL: 3})
        head = self.type_text(sort)
        if entities is None:
            entities = [Declared(self.new_name(), sort, self.bounds() if self.happens(0.6) else [])
                        for _ in range(self.chance.choice([1, 1, 2, 3])) if len(self.spare) > 2]
        shared = None
        if self.happens(0.2):
            shared = next((entity.bounds for entity in entities if entity.bounds), None)
        if shared:
            entities = [entity if entity.bounds else entity._replace(bounds=shared) for entity in entities]
            head += f', dimension({self.bounds_text(shared)})'
        texts = [self.entity(entity, entity.bounds == shared) for entity in entities]
        if texts:
            plain = not shared and not any('=' in text for text in texts) and self.happens(0.3)
            self.statements.append(head + (' ' if plain else self.chance.choice([' :: ', '::'])) + ', '.join(texts))

    def entity(self, entity, is_shared):
        text = entity.name
        if entity.bounds and not is_shared:
            text += f'({self.bounds_text(entity.bounds)})'
        if self.happens(0.2 if self.leaning == 'Undefined' else 0.45):
            text += f' = {self.initial(entity)}'
            self.defined.add(entity.name)
        self.variables.append(entity)
        return text

    def initial(self, entity):
        """An initial value; a list has one for each element."""
        draw = self.truth if entity.sort == LOGICAL else self.some_kind_of_number
        if entity.bounds and 0 < entity.size() <= LONGEST_LIST and self.happens(0.6):
            return f'[{", ".join(self.constant_text(draw, 1) for _ in range(entity.size()))}]'
        return self.constant_text(draw, 2)

    # ---- statements outside of loops

    def begin(self):
        """Defines most of the variables that have no values yet."""
        for variable in self.variables:
            if variable.name not in self.defined and self.happens(0.75 if self.leaning == 'Undefined' else 0.95):
                self.statements.append(f'{variable.name} = {self.value(variable.sort, 1)}')
                self.defined.add(variable.name)

    def value(self, sort, depth=2):
        return (self.truth(depth) if sort == LOGICAL else self.some_kind_of_number(depth)).text

    def assignment(self, variable, depth=2):
        """An assignment to a variable, or to an element of it."""
        has_elements = variable.bounds and variable.size()
        if has_elements and variable.size() <= LONGEST_LIST and self.happens(0.15):
            return f'{variable.name} = [{", ".join(self.value(variable.sort, 1) for _ in range(variable.size()))}]'
        if has_elements and self.happens(0.8 if self.index else 0.5):
            return f'{self.element(variable).text} = {self.value(variable.sort, depth)}'
        self.defined.add(variable.name)
        return f'{variable.name} = {self.value(variable.sort, depth)}'

    def statement(self):
        if self.happens(0.5):
            self.statements.append(self.output())
        else:
            self.statements.append(self.assignment(self.chance.choice(self.variables)))

    def output(self):
        items = [self.item() for _ in range(self.chance.choice([0, 1, 1, 1, 2, 3, 4]))]
        joined = self.chance.choice([', ', ',']).join(items)
        if self.happens(0.2):
            return f'write (*, *) {joined}'.rstrip()
        return f'print *{", " if items else ""}{joined}'

    def item(self):
        draw = self.chance.random()
        if draw < 0.15:
            return self.characters()
        if draw < 0.6:
            found = [variable.name for variable in self.variables
                     if variable.name in self.defined or self.risks('Undefined')]
            if found:
                return self.chance.choice(found)
        return self.value(self.chance.choice([LOGICAL, 4, 4]))

    def characters(self):
        text = ''.join(self.chance.choice(PIECES) for _ in range(self.chance.choice([0, 1, 1, 2])))
        quote = self.chance.choice('\'"')
        return quote + text.replace("''", "'").replace('""', '"').replace(quote, quote * 2) + quote

    # ---- loops

    def loop(self):
        """A loop over the dimension of an array that its index can reach."""
        scalars = [variable for variable in self.variables if variable.sort in KINDS and not variable.bounds]
        variable = self.chance.choice(scalars)
        arrays = [array for array in self.variables if is_reached(variable.sort, array)]
        if not arrays:
            self.statement()
            return
        lead = self.chance.choice(arrays)
        low, high = self.chance.choice(lead.bounds)
        label = self.chance.choice(['', '', '', self.chance.choice(PLAIN_NAMES)])
        self.statements.append((f'{label}: ' if label else '') + self.head(variable.name, low, high, lead))
        self.index = Index(variable.name, variable.sort, low, high)
        self.block(lead, [other for other in self.variables if other.name != variable.name])
        self.index = None
        self.statements.append(f'end do {label}'.rstrip())

    def head(self, name, low, high, lead):
        """The header of a loop, whose limits don't name the index."""
        self.shunned = {name}
        first, last = self.limits(low, high, lead)
        self.shunned = set()
        return f'do concurrent ({name} = {first}{self.chance.choice([":", " : "])}{last})'

    def limits(self, low, high, lead):
        """The limits of a loop over a dimension, which now and then are others."""
        if self.risks('TooManyIterations'):
            many = [('1', '4194305'), ('0', '4194304'), ('1', '2147483647'), ('-3000000', '2000000_8')]
            return self.chance.choice(many)
        if self.happens(0.03):
            return self.some_kind_of_number(2).text, self.some_kind_of_number(2).text
        if self.happens(0.03):
            low, high = low + self.chance.choice([-1, 0, 1]), high + self.chance.choice([-1, 0, 1])
        return self.limit(low, lead, 'lbound', 0), self.limit(high, lead, 'ubound', 1)

    def limit(self, number, lead, function, side):
        """A limit of this value, which may be asked of the array."""
        places = [place for place, bounds in enumerate(lead.bounds, 1) if bounds[side] == number]
        if places and abs(number) <= greatest(4) and self.has(function) and self.happens(0.25):
            return f'{function}({lead.name}, {places[0]})'
        return self.bound_number(number)

    def block(self, lead, others):
        shapes = {self.mapping: 8, self.wild: 2, self.carried: 1, self.gathered: 1}
        if self.leaning == 'race':
            shapes = {self.mapping: 1, self.wild: 3, self.carried: 3, self.gathered: 2}
        self.pick(shapes)(lead, others)

    def mapping(self, lead, others):
        """Each iteration defines elements of its own, by what no other one defines."""
        scalars = [variable for variable in others if not variable.bounds]
        temporaries = self.chance.sample(scalars, min(len(scalars), self.chance.choice([0, 0, 1, 2])))
        names = {temporary.name for temporary in temporaries}
        self.shunned = {lead.name, *names}
        for temporary in temporaries:
            self.statements.append(f'{temporary.name} = {self.value(temporary.sort)}')
            self.defined.add(temporary.name)
            self.shunned.discard(temporary.name)
        self.statements.append(f'{self.element(lead).text} = {self.value(lead.sort)}')
        self.shunned = set()
        if self.happens(0.9):
            self.defined -= names

    def wild(self, _lead, others):
        """Whatever comes."""
        for _ in range(self.chance.randint(0, 3)):
            self.statements.append(self.assignment(self.chance.choice(others)))

    def carried(self, lead, _others):
        """An element by another one of the same array."""
        self.statements.append(f'{self.element(lead).text} = {self.grown(lead.sort, self.element(lead).text)}')

    def gathered(self, lead, others):
        """A scalar by itself and an element."""
        scalars = [variable for variable in others
                   if not variable.bounds and (variable.sort == LOGICAL) == (lead.sort == LOGICAL)]
        if not scalars:
            self.carried(lead, others)
            return
        name = self.chance.choice(scalars).name
        self.statements.append(f'{name} = {self.grown(lead.sort, name, self.element(lead).text)}')

    def grown(self, sort, text, other=None):
        """An expression of a sort, with what it is to go on from."""
        if sort == LOGICAL:
            return f'{text} .or. {other or ".false."}'
        return f'{text} {self.chance.choice("+-*")} {other or self.chance.randint(1, 3)}'


def is_reached(kind, array):
    """Whether it has elements, whose subscripts are all numbers of the kind."""
    return array.bounds and array.size() and all(
        abs(bound) <= greatest(kind) for bounds in array.bounds for bound in bounds)


def program(chance, leaning=None):
    """The statements of a program, which leans to a race or to a kind of fault."""
    return Drawer(chance, leaning).program()
