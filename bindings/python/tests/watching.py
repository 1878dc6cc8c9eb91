"""Counts which public names of the package some files call, and with which arguments, so that none is forgotten."""
import functools
import inspect
import sys
from collections import Counter
from typing import Any, Dict, Iterator, List, Optional, Set, Tuple

import narthexmace

#: What is behind an operator, a `with` or a call of Python's own.
_BEHIND = {"__len__", "__getitem__", "__iter__", "__contains__", "__enter__", "__exit__", "__repr__", "__array__"}


#: The names of databases, which test_drawn_databases draws; test_drawn draws all others.
DATABASES = {"Database", "DatabaseCounts", "Report", "DatabaseSnapshot", "DatabaseTransaction", "connect", "Locked",
"Corrupt", "Incomplete", "Mismatch",
             "OutcomeUnknown", "WritesFailed", "TooLong", "ReadOnlyDatabase", "NewerFormat"}  # fmt: skip


def is_public(kind: type, name: str) -> bool:
    return not name.startswith("_") or (name in _BEHIND and not issubclass(kind, tuple))


def classes() -> List[type]:
    """The package's public classes, but for exceptions."""
    things = [getattr(narthexmace, name) for name in narthexmace.__all__]
    return [it for it in things if inspect.isclass(it) and not issubclass(it, BaseException)]


def exceptions() -> Set[str]:
    kinds = (getattr(narthexmace, name) for name in narthexmace.__all__)
    return {it.__name__ for it in kinds if inspect.isclass(it) and issubclass(it, narthexmace.Error)}


def attributes(kind: type) -> Iterator[Tuple[type, str, Any]]:
    """What a class has of the package: the class that says it, the name, and what is there."""
    for base in kind.__mro__:
        if base.__module__.startswith("narthexmace"):
            for name, value in vars(base).items():
                if is_public(base, name):
                    yield base, name, value


def arguments(call: Any, first: int) -> List[str]:
    return list(inspect.signature(call).parameters)[first:]


def wanted() -> Set[str]:
    """Each public name but those of databases."""
    return {name for name in all_wanted() if not is_of_databases(name)}


def wanted_of_databases() -> Set[str]:
    return {name for name in all_wanted() if is_of_databases(name)}


def is_of_databases(name: str) -> bool:
    return name.split(".")[0].split("(")[0] in DATABASES


def all_wanted() -> Set[str]:
    """Each public name, as `Table.begin`, and each argument of a public call, as `Table.begin(client)`."""
    names = set()
    for kind in classes():
        for _, name, value in attributes(kind):
            names.add(f"{kind.__name__}.{name}")
            if inspect.isfunction(value) and not name.startswith("_"):
                names.update(f"{kind.__name__}.{name}({it})" for it in arguments(value, 1))
    for name in narthexmace.__all__:
        if inspect.isfunction(getattr(narthexmace, name)):
            names.update({name, *(f"{name}({it})" for it in arguments(getattr(narthexmace, name), 0))})
    return names | exceptions()


class Watch:
    """While it is entered, each public name that is used from these files is counted in `drawn`."""

    def __init__(self, *files: str) -> None:
        self.drawn: "Counter[str]" = Counter()
        self.files = set(files)
        self._kept: List[Tuple[Any, str, Any]] = []

    def __enter__(self) -> "Watch":
        watched: Dict[Tuple[type, str], Any] = {}
        for kind in classes():
            for base, name, value in attributes(kind):
                watched[base, name] = value
        for (base, name), value in watched.items():
            self._put(base, name, Watched(self, name, value))
        for name in narthexmace.__all__:
            if inspect.isfunction(getattr(narthexmace, name)):
                call = getattr(narthexmace, name)
                self._put(narthexmace, name, functools.partial(self.called, name, arguments(call, 0), call))
        return self

    def _put(self, owner: Any, name: str, value: Any) -> None:
        self._kept.append((owner, name, vars(owner)[name]))
        setattr(owner, name, value)

    def __exit__(self, *_: object) -> None:
        for owner, name, value in reversed(self._kept):
            setattr(owner, name, value)

    def sees(self, frame: Any) -> bool:
        return frame.f_code.co_filename in self.files

    def called(self, name: str, places: List[str], call: Any, /, *given: Any, **words: Any) -> Any:
        """Makes a call, and counts it with its arguments, unless it is refused."""
        answer = call(*given, **words)
        self.drawn.update([name, *(f"{name}({it})" for it in [*places[: len(given)], *words])])
        return answer

    def raised(self, fault: BaseException) -> None:
        self.drawn[type(fault).__name__] += 1


class Watched:
    """Stands for an attribute of a class, and counts who reads it."""

    def __init__(self, watch: Watch, name: str, inner: Any) -> None:
        self.watch, self.name, self.inner = watch, name, inner
        self.is_call = inspect.isfunction(inner)
        self.places = arguments(inner, 1) if self.is_call and not name.startswith("_") else []

    def __get__(self, thing: Any, kind: Optional[type] = None) -> Any:
        if thing is None:
            return self
        value = self.inner.__get__(thing, kind)
        if not self.watch.sees(sys._getframe(1)):
            return value
        name = f"{type(thing).__name__}.{self.name}"
        if self.is_call:
            return functools.partial(self.watch.called, name, self.places, value)
        self.watch.drawn[name] += 1
        return value

    def __set__(self, thing: Any, value: Any) -> None:
        self.inner.__set__(thing, value)
