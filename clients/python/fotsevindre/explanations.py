"""The sentences of errors, for the call that failed."""

import functools
import operator
import re
import string
from typing import Any, Callable

from . import _core, errors
from .messages import CALLS, NAMES

# The statuses of components.
_STATUSES = {name: status for status, name in NAMES.items()}
_INSUFFICIENT_FORMAT = 41
# The names of arguments that differ from the names of the components.
_ARGUMENTS = {"offset hour": "hours", "offset minute": "minutes", "offset second": "seconds"}
# The items of a format that show names.
_NAMES = re.compile(r"%[-_0^#]*[aAbBhpPcrv]|\[(?:month|weekday|period)")
# The characters that can follow, besides a digit: without names, and with them.
_NEXT = "-+:./, @DHJMPRSTWYZ"
_NEXT_IN_NAMES = f"{_NEXT[:8]}{string.ascii_letters}"


def arguments(call: int, given: tuple[Any, ...]) -> tuple[str, dict[str, Any]]:
    """Returns the name of the method of a call, and those arguments that it got, by their names."""
    method, *names = CALLS[call]
    return method, {name: one for name, one in zip(names, given) if one is not None}


def _of_string(status: int, text: str, format: Any = None) -> str:
    """Returns the sentence of a status for a string, and a format if there is one."""
    # The library reads the components of strings with English names only.
    if format is None or hasattr(format, "names"):
        return _core.parse_error_text(status, text)
    pivot = getattr(format, "_pivot", None)
    return _core.format_error_text(status, text, format, -1 if pivot is None else pivot)


def of_component(name: str, owner: Any, method: str, given: dict[str, Any]) -> str | None:
    """Returns the sentence of a component that is out of range: one of the arguments, of the string, or
    of the value in which a method replaces it."""
    # Some methods take a part of the range, of which this knows nothing.
    words = _of_string(_STATUSES[name], **given) if "text" in given else _of_value(name, owner, method, given)
    return words if " is out of range " in words else None


def _of_value(name: str, owner: Any, method: str, given: dict[str, Any]) -> str:
    """Returns the sentence of a component that is an argument, or a component of the owner."""
    if "number" in given:
        given[method.removeprefix("replace_")] = given["number"]

    def component(name: str) -> int:
        key = _ARGUMENTS.get(name, name)
        return operator.index(given[key] if key in given else getattr(owner, key))

    value = component(name)
    year = component("year") if name in ("day", "ordinal", "week") else 0
    month = component("month") if name == "day" else 0
    words = _core.component_text(_STATUSES[name], value, year, month)
    # C has numbers of 64 bits.
    near = max(-2**63, min(value, 2**63 - 1))
    return words.replace(str(near), str(value), 1)


def _digits(digits: list[str]) -> list[str]:
    """Returns the words for some digits in a row."""
    if len(digits) < 3:
        return [_quoted(digit) for digit in digits]
    return ["a digit" + f" from {digits[0]} to {digits[-1]}" * (len(digits) < 10)]


@functools.lru_cache(1024)
def _expected(parse: Callable[..., Any], front: str, *format: Any) -> str | None:
    """Returns what a string can go on with after its front, which the parser itself says."""
    def fits(text: str) -> bool:
        try:
            parse(text, *format)
        except errors.ParseError as error:
            return error.is_end
        except ValueError:
            pass
        return True

    def is_whole() -> bool:
        try:
            parse(front, *format)
        except errors.ParseError:
            return False
        except ValueError:
            pass
        return True

    has_names = bool(format) and _NAMES.search(str(getattr(format[0], "_text", format[0])))
    words = _digits([digit for digit in string.digits if fits(front + digit)])
    names = getattr(format[0], "names", None) if format else None
    others = sorted({*"".join(map("".join, vars(names).values()))} - {*string.digits, *_NEXT[:8]}) if names else _NEXT_IN_NAMES[8:]
    words += [f'"{one}"' for one in ([*_NEXT[:8], *others] if has_names else _NEXT) if fits(front + one)]
    # A lenient format takes letters in any case.
    words = [word for word in words if word[0] != '"' or word == word.upper() or word.upper() not in words]
    words += ["the end"] * is_whole()
    return " or ".join(filter(None, [", ".join(words[:-1]), words[-1]])) if words else None


def _quoted(text: str) -> str:
    """Returns a string between quotes, without control characters and lone surrogates."""
    return f'"{text if text.isprintable() else repr(text)[1:-1]}"'


def of_position(position: int, owner: Any, method: str, given: dict[str, Any]) -> str | None:
    """Returns the sentence of a string that is wrong at a position."""
    text, format = given["text"], given.get("format")
    found = _quoted(text[position]) if position < len(text) else "the end"
    expected = _expected(getattr(owner, method), text[:position], *([] if format is None else [format]))
    return f"expected {expected} at position {position}, found {found}" if expected else \
        f"unexpected {found.removeprefix('the ')} at position {position}"


def item_at(format: str) -> str:
    """Returns the item in the syntax of `strftime` at the start of a string."""
    item = re.match("%[-_^#:0-9]*.?|.", format, re.DOTALL)
    return _quoted(item[0] if item else "")


def remedy(format: Any) -> str:
    """Returns the sentence of a format that doesn't determine a value, with an item that it lacks."""
    return _of_string(_INSUFFICIENT_FORMAT, "", format)
