"""Tasks on any engine: `submit` and `result` are all that is asked of it."""
from __future__ import annotations

import collections
import concurrent.futures
from typing import Any, Callable, Deque, List, Sequence, Tuple

from .errors import SweepError

MOST_UNDER_WAY = 256  # tasks that were given to an engine and whose rows are not there yet
Part = Sequence[Any]
Take = Callable[[Part, Any], None]
Tried = Tuple[int, Part, Any]  # how often a part failed, the part, and what is to come of it


class Broken(Exception):
    """The engine ended. `left` are the parts whose rows are not there; the reason is the cause."""

    def __init__(self, left: List[Sequence[Any]]) -> None:
        super().__init__()
        self.left = left


def spread(
    executor: Any, work: Callable[..., Any], task: Any, parts: Sequence[Part], take: Take, retries: int,
) -> None:
    """Gives each part to an engine with its task, and what comes of it to `take`, in the order of the parts.

    A part that failed, as where its worker died, goes again up to `retries` times.

    Raises
    ------
    Broken
        where the engine takes no more; what was made by then has been taken
    SweepError
        where a part failed more often
    """
    todo: Deque[Tuple[int, Part]] = collections.deque((0, part) for part in parts)
    under_way: Deque[Tried] = collections.deque()
    try:
        while todo or under_way:
            while todo and len(under_way) < MOST_UNDER_WAY:
                tries, part = todo.popleft()
                try:
                    under_way.append((tries, part, executor.submit(work, task, part)))
                except Exception as error:
                    todo.appendleft((tries, part))
                    raise Broken(rest(under_way, todo, take)) from error
            tries, part, future = under_way.popleft()
            try:
                found = future.result()
            except (concurrent.futures.BrokenExecutor, concurrent.futures.CancelledError) as error:
                todo.appendleft((tries, part))
                raise Broken(rest(under_way, todo, take)) from error
            except Exception as error:
                if tries >= retries:
                    raise SweepError(f"a task failed {tries + 1} times, the last time with {type(error).__name__}: {error}") from error
                todo.append((tries + 1, part))
                continue
            take(part, found)
    finally:
        for _, _, future in under_way:
            getattr(future, "cancel", int)()


def rest(under_way: Deque[Tried], todo: Deque[Tuple[int, Part]], take: Take) -> List[Part]:
    """The parts that are not made, where an engine ended; what it had made before is taken."""
    left = [part for _, part in todo]
    while under_way:
        _, part, future = under_way.popleft()
        try:
            found = future.result()
        except Exception:  # it ended with the engine
            left.append(part)
            continue
        take(part, found)
    return left
