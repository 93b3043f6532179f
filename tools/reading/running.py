"""What the run of a program writes, its log, and its status."""
from typing import NamedTuple

from reading.judging import Judge, Stopped
from reading.numbers import Fault
from reading.program import Loop, Printing, program_of
from reading.stores import Patience, Store, Walker
from reading.values import LOGICAL

MOST_OUTPUT = 16_777_216


class Answer(NamedTuple):
    out: str
    log: str
    status: int


def written(sort, item):
    """A value of a sort as it is written; characters have none."""
    return item if sort is None else 'FT'[item] if sort == LOGICAL else str(item)


class Run:
    """The run of a program, which may take so many steps."""

    def __init__(self, program, steps=None):
        self.program = program
        self.patience = Patience(steps)
        self.store = Store(program.variables)
        self.lines = []
        self.length = 0

    def answer(self):
        log, status = '', 0
        try:
            for statement in self.program.statements:
                self.step(statement)
        except Fault as fault:
            log, status = f'fault: {fault.kind}: line {fault.line}\n', 3
        except Stopped as stopped:
            log, status = stopped.log, stopped.status
        return Answer(''.join(self.lines), log, status)

    def step(self, statement):
        walker = Walker(self.store, self.patience)
        if isinstance(statement, Loop):
            Judge(statement, self.program.variables, self.store, self.patience).judge()
        elif isinstance(statement, Printing):
            self.print(walker, statement)
        else:
            walker.carry_out(statement)

    def print(self, walker, statement):
        try:
            line = ' '.join(written(*item) for item in walker.printed(statement.items)) + '\n'
            if self.length + len(line) > MOST_OUTPUT:
                raise Fault('OutputFull')
        except Fault as fault:
            raise Fault(fault.kind, statement.line) from fault
        self.lines.append(line)
        self.length += len(line)


def answer_of(text, steps=None):
    """The answer of `run` for a source, one byte a character. It raises Refused where the source is, and Tedious
    where the run takes more steps than that."""
    return Run(program_of(text), steps).answer()
