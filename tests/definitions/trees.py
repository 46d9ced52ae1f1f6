"""The trees of antt expressions. Patterns are written like expressions, and are read as such."""
from dataclasses import dataclass


@dataclass(frozen=True)
class Number:
    line: int
    value: int


@dataclass(frozen=True)
class Text:
    line: int
    value: str


@dataclass(frozen=True)
class Name:
    line: int
    name: str


@dataclass(frozen=True)
class Apply:
    line: int
    head: object
    arguments: tuple


@dataclass(frozen=True)
class Project:
    """`x.f`, and also `Enum.Variant`."""
    line: int
    of: object
    field: str


@dataclass(frozen=True)
class Infix:
    line: int
    operator: str
    left: object
    right: object


@dataclass(frozen=True)
class Lambda:
    line: int
    names: tuple
    body: object


@dataclass(frozen=True)
class Let:
    line: int
    name: str
    value: object
    body: object


@dataclass(frozen=True)
class Record:
    line: int
    fields: tuple   # of pairs: name, tree
