"""What agents and controllers ask of etcd, as values: `fleet_etcd` sends them, and a simulation carries them out."""
from __future__ import annotations

from dataclasses import dataclass
from typing import NamedTuple, Optional, Tuple, Union


class Pair(NamedTuple):
    """A key with its value. `created` and `modified` are revisions of etcd, `lease` is 0 where there is none."""

    key: str
    value: str
    created: int
    modified: int
    lease: int = 0


class Event(NamedTuple):
    """A change of a key at a revision; the value is None where the key went."""

    key: str
    value: Optional[str]
    revision: int


class Put(NamedTuple):
    key: str
    value: str
    lease: int = 0


class Delete(NamedTuple):
    key: str


class Get(NamedTuple):
    """The pairs from `key` up to but without `end`, or of `key` alone; without values where only keys are wanted."""

    key: str
    end: Optional[str] = None
    keys_only: bool = False


class Created(NamedTuple):
    """The comparison that a key was created at a revision; 0: that it is not there."""

    key: str
    revision: int


class Modified(NamedTuple):
    """The comparison that a key was last written at a revision; 0: that it is not there."""

    key: str
    revision: int


class Equals(NamedTuple):
    """The comparison that a key is there with a value."""

    key: str
    value: str


Compare = Union[Created, Modified, Equals]
Change = Union[Put, Delete, Get]


@dataclass(frozen=True)
class Txn:
    """A transaction: the changes `then` where all comparisons hold, else the changes `otherwise`."""

    compare: Tuple[Compare, ...]
    then: Tuple[Change, ...]
    otherwise: Tuple[Change, ...] = ()


@dataclass(frozen=True)
class Grant:
    """A lease of so many seconds. Its answer is the lease's number."""

    seconds: int


@dataclass(frozen=True)
class Keep:
    """A lease once more. Its answer is the seconds that it has now, or 0 where it is gone."""

    lease: int


Call = Union[Txn, Grant, Keep]


@dataclass(frozen=True)
class Done:
    """The answer to a transaction: whether the comparisons held, the revision, and the pairs of each `Get` in turn."""

    held: bool
    revision: int
    found: Tuple[Tuple[Pair, ...], ...] = ()


Answer = Union[Done, int]
Span = Tuple[str, Optional[str]]


def under(prefix: str) -> Span:
    """The range of all keys with a prefix."""
    return prefix, prefix[:-1] + chr(ord(prefix[-1]) + 1)


def is_in(key: str, span: Span) -> bool:
    """Whether a key is in a range."""
    return key == span[0] if span[1] is None else span[0] <= key < span[1]
