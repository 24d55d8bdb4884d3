"""Units of durations, and functions for the members in Python that types.pyi declares."""

import functools
import importlib
import math
import types
from typing import Any

from . import _core
from ._core import SignedDuration


def _member_of(kind: type, function: types.FunctionType) -> types.FunctionType:
    """Returns a copy of a function that errors and pickles name as a member of a type of the
    package."""
    copy = types.FunctionType(function.__code__, function.__globals__, function.__name__,
        function.__defaults__, function.__closure__)
    functools.update_wrapper(copy, function)
    del copy.__wrapped__  # type: ignore[attr-defined]
    copy.__kwdefaults__ = function.__kwdefaults__
    copy.__module__ = "fotsevindre"
    copy.__qualname__ = f"{kind.__name__}.{function.__name__}"
    return copy


class Members:
    """A base class: the functions of a class that extends it become members of types of C."""

    def __init_subclass__(cls, of: tuple[type, ...]) -> None:
        for name, member in vars(cls).items():
            function = getattr(member, "__func__", member)
            if isinstance(function, types.FunctionType):
                for kind in of:
                    copy = _member_of(kind, function)
                    setattr(kind, name, copy if function is member else type(member)(copy))


def parts_of(period: Any) -> dict[str, Any]:
    """Returns the parts of a `Period` that aren't zero, by their names."""
    names = ("years", "months", "weeks", "days", "duration")
    return {name: part for name in names if (part := getattr(period, name))}


def instant_of(timestamp: float) -> SignedDuration:
    """Returns the Unix time of seconds. A float is rounded to microseconds as in `datetime`."""
    if isinstance(timestamp, float):
        fraction, seconds = math.modf(timestamp)
        return SignedDuration(seconds=int(seconds), microseconds=round(fraction * 1e6))
    return SignedDuration(seconds=timestamp)


def value_of(kind: Any, given: object) -> Any:
    """Returns a value of a type, or parses its string."""
    return given if isinstance(given, kind) else kind.fromisoformat(given)


def pydantic_schema(kind: Any) -> Any:
    """Returns the schema of a type for Pydantic 2, which imports this first."""
    core_schema = importlib.import_module("pydantic_core.core_schema")
    text = core_schema.no_info_after_validator_function(kind.fromisoformat, core_schema.str_schema())
    return core_schema.json_or_python_schema(
        json_schema=text,
        python_schema=core_schema.union_schema([core_schema.is_instance_schema(kind), text]),
        serialization=core_schema.plain_serializer_function_ser_schema(
            str, when_used="json", return_schema=core_schema.str_schema()))


# The first ones are only functions. The others are attributes of a duration, too.
for _place, _name in enumerate("weeks hours minutes milliseconds days seconds microseconds nanoseconds".split()):
    setattr(SignedDuration, _name, _core.unit(getattr(_core, _name), _place))
