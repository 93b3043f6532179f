"""A text as a program: its variables in declared order, and its statements with their lines."""
from dataclasses import dataclass

from reading import syntax
from reading.naming import Names, has_elements
from reading.parsing import parts_of, statement_of
from reading.source import Refused, statements_of
from reading.tokens import tokens_of
from reading.values import LOGICAL, Index, Variable, Whole


@dataclass
class Assignment:
    """`places` are the subscripts of an element, or None for a scalar and for each element of an array."""
    line: int
    variable: Variable
    places: list | None
    value: object

    def carried_out_by(self, walker):
        walker.assign(self.variable, self.places, self.value)


@dataclass
class Filling:
    """`a = [list]`."""
    line: int
    variable: Variable
    values: list

    def carried_out_by(self, walker):
        walker.fill(self.variable, self.values)


@dataclass
class Printing:
    """The items are literals, whole arrays and expressions."""
    line: int
    items: list


@dataclass
class Loop:
    line: int
    index: Index
    first: object
    last: object
    block: list


@dataclass
class Program:
    variables: list
    statements: list


class Builder:
    """Takes the statements of a program in their order."""

    def __init__(self, statements):
        self.statements = statements
        self.at = 0
        self.names = Names()

    def next(self):
        return self.statements[self.at][1] if self.at < len(self.statements) else None

    def take(self):
        self.at += 1
        return self.statements[self.at - 1]

    def all_of(self, form):
        """The statements of this form that stand here."""
        while isinstance(self.next(), form):
            yield self.take()[1]

    def program(self):
        if not isinstance(self.next(), syntax.ProgramLine):
            raise Refused('the first statement is no PROGRAM')
        name = self.take()[1].name
        for use in self.all_of(syntax.Use):
            self.names.use(use)
        if isinstance(self.next(), syntax.ImplicitNone):
            self.take()
        for declare in self.all_of(syntax.Declare):
            self.names.declared(declare)
        statements = []
        while self.next() and not isinstance(self.next(), syntax.EndProgram):
            statements.append(self.statement())
        if not self.next() or self.take()[1].name not in (None, name) or self.next():
            raise Refused('the program does not end as it begins')
        return Program(self.names.variables, statements)

    def statement(self):
        line, tree = self.take()
        match tree:
            case syntax.Print():
                return Printing(line, [self.item(item) for item in tree.items])
            case syntax.Concurrent():
                return self.loop(line, tree)
        return self.assignment(line, tree, self.names)

    def item(self, item):
        if isinstance(item, syntax.Literal):
            return item
        if isinstance(item, syntax.Name):
            meaning = self.names.meanings.get(item.name)
            if isinstance(meaning, Variable) and meaning.bounds:
                return Whole(meaning)
        return self.names.expression(item)

    def assignment(self, line, tree, names):
        """An assignment, with the names that can be used where it stands."""
        if not isinstance(tree, (syntax.Assign, syntax.Fill)):
            raise Refused(f'line {line} has a statement that is not allowed there')
        target = syntax.Target(tree.name, None) if isinstance(tree, syntax.Fill) else tree.target
        variable = names.meanings.get(target.name)
        if not isinstance(variable, Variable):
            raise Refused(f'{target.name} can not be assigned to')
        if isinstance(tree, syntax.Fill):
            if not variable.bounds or len(tree.values) != variable.size():
                raise Refused(f'{target.name} has another number of elements')
            return Filling(line, variable, [assigned(variable, names.expression(value)) for value in tree.values])
        places = None
        if target.subscripts is not None:
            if not has_elements(variable, target.subscripts):
                raise Refused(f'{target.name} has no such elements')
            places = [names.number(subscript) for subscript in target.subscripts]
        return Assignment(line, variable, places, assigned(variable, names.expression(tree.value)))

    def loop(self, line, tree):
        variable = self.names.meanings.get(tree.index)
        if not isinstance(variable, Variable) or variable.bounds or variable.sort == LOGICAL:
            raise Refused(f'{tree.index} is no INTEGER scalar')
        index = Index(tree.index, variable.sort)
        names = self.names.inside(index)
        if mentions(tree.index, tree.first) or mentions(tree.index, tree.last):
            raise Refused('a limit names the index')
        first, last = names.number(tree.first), names.number(tree.last)
        block = []
        while not isinstance(self.next(), syntax.EndDo):
            if not self.next():
                raise Refused('a loop is open at the end')
            block.append(self.assignment(*self.take(), names))
        if self.take()[1].label != tree.label:
            raise Refused('a loop does not end as it begins')
        return Loop(line, index, first, last, block)


def assigned(variable, value):
    """The value, which is of the type of the variable."""
    if (value.sort == LOGICAL) != (variable.sort == LOGICAL):
        raise Refused('an assigned value has another type')
    return value


def mentions(name, tree):
    return getattr(tree, 'name', None) == name or any(mentions(name, part) for part in parts_of(tree))


def program_of(text):
    """The program that a text is, one byte a character. It is refused where it is none that is run today."""
    statements = [(line, statement_of(tokens_of(characters))) for line, characters in statements_of(text)]
    return Builder(statements).program()
