"""The trees of expressions and statements, as they are written."""
from dataclasses import dataclass
from typing import NamedTuple


# ---- expressions

@dataclass
class Number:
    digits: str
    kind: str | None
    depth: int = 1


@dataclass
class Truth:
    value: bool
    depth: int = 1


@dataclass
class Name:
    name: str
    depth: int = 1


@dataclass
class Refer:
    """A name with arguments or subscripts. `keyed` has the places of those with `kind =` in front."""
    name: str
    args: list
    keyed: set
    depth: int = 0


@dataclass
class Paren:
    inside: object
    depth: int = 0


@dataclass
class Unary:
    mark: str
    right: object
    depth: int = 0


@dataclass
class Binary:
    mark: str
    left: object
    right: object
    depth: int = 0


# ---- parts of statements

@dataclass
class Literal:
    """A character literal, which is an item of output alone."""
    text: str


class Target(NamedTuple):
    name: str
    subscripts: list | None


class Spec(NamedTuple):
    """INTEGER with its kind, which may be None, or LOGICAL."""
    logical: bool
    kind: object


class Entity(NamedTuple):
    """A declared name. Bounds are pairs of a lower one, or None, and an upper one."""
    name: str
    bounds: list | None
    value: object
    values: list | None


# ---- statements

@dataclass
class ProgramLine:
    name: str


@dataclass
class Use:
    module: str
    names: list


@dataclass
class ImplicitNone:
    pass


@dataclass
class Declare:
    spec: Spec
    parameter: bool
    dimension: list | None
    entities: list


@dataclass
class Assign:
    target: Target
    value: object


@dataclass
class Fill:
    name: str
    values: list


@dataclass
class Print:
    items: list


@dataclass
class Concurrent:
    label: str | None
    index: str
    first: object
    last: object


@dataclass
class EndDo:
    label: str | None


@dataclass
class EndProgram:
    name: str | None
