"""Tokens to the trees of statements, by the grammar of free-form Fortran as far as programs are run today. Every
other statement is refused, whether it is one of the language or none."""
from reading import syntax
from reading.source import Refused
from reading.tokens import Token

DEEPEST = 256

RESERVED = set('''program end integer logical do if then else select case call print write read stop error exit cycle
    contains function subroutine pure use implicit return continue parameter allocate deallocate block forall where
    goto real complex character module submodule enddo endif elseif endprogram endfunction endsubroutine selectcase
    endselect'''.split())

RELATIONS = ('==', '/=', '<', '<=', '>', '>=')


class Parser:
    """Reads one statement from its tokens."""

    def __init__(self, tokens):
        self.tokens = tokens
        self.at = 0
        self.inside = 0     # how many brackets and references are open

    # ---- single tokens

    def next(self, ahead=0):
        at = self.at + ahead
        return self.tokens[at] if at < len(self.tokens) else Token('end', '')

    def is_mark(self, *marks, ahead=0):
        token = self.next(ahead)
        return token.sort == 'mark' and token.text in marks

    def is_word(self, *words, ahead=0):
        token = self.next(ahead)
        return token.sort == 'word' and token.text in words

    def take(self):
        self.at += 1
        return self.tokens[self.at - 1]

    def takes_mark(self, *marks):
        """The mark where one of these stands here, and it is passed then."""
        return self.take().text if self.is_mark(*marks) else None

    def takes_word(self, *words):
        return self.take().text if self.is_word(*words) else None

    def mark(self, mark):
        if not self.takes_mark(mark):
            raise Refused(f'{mark} is missing in front of {self.next().text!r}')

    def word(self, word):
        if not self.takes_word(word):
            raise Refused(f'{word} is missing in front of {self.next().text!r}')

    def name(self):
        token = self.next()
        if token.sort != 'word' or token.text in RESERVED:
            raise Refused(f'a name is missing in front of {token.text!r}')
        return self.take().text

    def is_at_end(self):
        return self.at == len(self.tokens)

    def list_of(self, one):
        """One or more of something, with commas between."""
        found = [one()]
        while self.takes_mark(','):
            found.append(one())
        return found

    # ---- expressions, from the weakest operator to the strongest

    def expression(self):
        return self.joined(self.disjunction, '.eqv.', '.neqv.')

    def disjunction(self):
        return self.joined(self.conjunction, '.or.')

    def conjunction(self):
        return self.joined(self.negation, '.and.')

    def joined(self, operand, *marks):
        """Operands of one rank, which go from the left."""
        left = operand()
        while mark := self.takes_mark(*marks):
            left = whole(syntax.Binary(mark, left, operand()))
        return left

    def negation(self):
        if self.takes_mark('.not.'):
            return whole(syntax.Unary('.not.', self.relation()))
        return self.relation()

    def relation(self):
        left = self.sum()
        if mark := self.takes_mark(*RELATIONS):
            return whole(syntax.Binary(mark, left, self.sum()))
        return left

    def sum(self):
        sign = self.takes_mark('+', '-')
        left = self.term()
        if sign:
            left = whole(syntax.Unary(sign, left))
        while mark := self.takes_mark('+', '-'):
            left = whole(syntax.Binary(mark, left, self.term()))
        return left

    def term(self):
        return self.joined(self.power, '*', '/')

    def power(self):
        base = self.primary()
        if self.takes_mark('**'):
            return whole(syntax.Binary('**', base, self.power()))
        return base

    def primary(self):
        token = self.next()
        if token.sort == 'number':
            self.take()
            return syntax.Number(token.text, token.kind)
        if token.sort == 'truth':
            self.take()
            return syntax.Truth(token.text == '.true.')
        if self.takes_mark('('):
            return whole(syntax.Paren(self.bracketed(self.expression)))
        name = self.name()
        if self.takes_mark('('):
            return self.bracketed(lambda: self.reference(name))
        return syntax.Name(name)

    def bracketed(self, content):
        """What stands in front of the closing bracket."""
        self.inside += 1
        if self.inside > DEEPEST:
            raise Refused('an expression is too deep')
        found = content()
        self.mark(')')
        self.inside -= 1
        return found

    def reference(self, name):
        args, keyed = [], set()
        while not args or self.takes_mark(','):
            if not args and self.is_mark(')'):
                break
            if self.is_word('kind') and self.is_mark('=', ahead=1):
                self.at += 2
                keyed.add(len(args))
            args.append(self.expression())
        return whole(syntax.Refer(name, args, keyed))

    # ---- statements

    def statement(self):
        found = self.any_statement()
        if not self.is_at_end():
            raise Refused(f'{self.next().text!r} is too much')
        return found

    def any_statement(self):
        forms = {'program': self.program, 'use': self.use, 'implicit': self.implicit,
                 'integer': self.declare, 'logical': self.declare,
                 'print': self.print, 'write': self.write, 'do': self.concurrent, 'end': self.end}
        token = self.next()
        if token.sort == 'word' and token.text in forms:
            return forms[token.text]()
        if self.is_mark(':', ahead=1):
            label = self.name()
            self.mark(':')
            return self.concurrent(label)
        return self.assign()

    def program(self):
        self.word('program')
        return syntax.ProgramLine(self.name())

    def use(self):
        self.word('use')
        if self.takes_mark(','):
            self.word('intrinsic')
            self.mark('::')
        else:
            self.takes_mark('::')
        module = self.name()
        self.mark(',')
        self.word('only')
        self.mark(':')
        return syntax.Use(module, self.list_of(self.name))

    def implicit(self):
        self.word('implicit')
        self.word('none')
        return syntax.ImplicitNone()

    def print(self):
        self.word('print')
        self.mark('*')
        return syntax.Print(self.list_of(self.item) if self.takes_mark(',') else [])

    def write(self):
        self.word('write')
        for mark in '(*,*)':
            self.mark(mark)
        return syntax.Print([] if self.is_at_end() else self.list_of(self.item))

    def item(self):
        if self.next().sort == 'literal':
            return syntax.Literal(self.take().text)
        return self.expression()

    def concurrent(self, label=None):
        self.word('do')
        self.word('concurrent')
        self.mark('(')
        index = self.name()
        self.mark('=')
        first = self.expression()
        self.mark(':')
        last = self.expression()
        self.mark(')')
        return syntax.Concurrent(label, index, first, last)

    def end(self):
        self.word('end')
        if self.takes_word('do'):
            return syntax.EndDo(None if self.is_at_end() else self.name())
        if self.takes_word('program') and not self.is_at_end():
            return syntax.EndProgram(self.name())
        return syntax.EndProgram(None)

    def assign(self):
        name = self.name()
        subscripts = self.bracketed(lambda: self.list_of(self.expression)) if self.takes_mark('(') else None
        self.mark('=')
        if subscripts is None and self.is_mark('['):
            return syntax.Fill(name, self.values())
        return syntax.Assign(syntax.Target(name, subscripts), self.expression())

    def values(self):
        self.mark('[')
        found = self.list_of(self.expression)
        self.mark(']')
        return found

    # ---- declarations

    def declare(self):
        spec = self.spec()
        attributes = syntax.Declare(spec, False, None, [])
        bare = True
        while self.takes_mark(','):
            self.attribute(attributes)
            bare = False
        colons = self.takes_mark('::')
        attributes.entities = self.list_of(self.entity)
        valued = any(entity.value or entity.values for entity in attributes.entities)
        if not colons and (valued or not bare):
            raise Refused(':: is missing in a declaration')
        return attributes

    def spec(self):
        if self.takes_word('logical'):
            return syntax.Spec(True, None)
        self.word('integer')
        if not self.takes_mark('('):
            return syntax.Spec(False, None)
        if self.is_word('kind') and self.is_mark('=', ahead=1):
            self.at += 2
        return syntax.Spec(False, self.bracketed(self.expression))

    def attribute(self, declare):
        if self.takes_word('parameter'):
            declare.parameter = True
        elif self.takes_word('dimension'):
            self.mark('(')
            declare.dimension = self.bracketed(lambda: self.list_of(self.bound))
        else:
            raise Refused(f'{self.next().text!r} is no attribute')

    def entity(self):
        name = self.name()
        bounds = self.bracketed(lambda: self.list_of(self.bound)) if self.takes_mark('(') else None
        if not self.takes_mark('='):
            return syntax.Entity(name, bounds, None, None)
        if self.is_mark('['):
            return syntax.Entity(name, bounds, None, self.values())
        return syntax.Entity(name, bounds, self.expression(), None)

    def bound(self):
        first = self.expression()
        if self.takes_mark(':'):
            return first, self.expression()
        return None, first


def parts_of(tree):
    match tree:
        case syntax.Refer():
            return tree.args
        case syntax.Paren():
            return [tree.inside]
        case syntax.Unary():
            return [tree.right]
        case syntax.Binary():
            return [tree.left, tree.right]
    return []


def whole(tree):
    """The tree with its depth."""
    tree.depth = 1 + max((part.depth for part in parts_of(tree)), default=0)
    if tree.depth > DEEPEST:
        raise Refused('an expression is too deep')
    return tree


def statement_of(tokens):
    return Parser(tokens).statement()
