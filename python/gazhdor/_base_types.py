"""The base types of the FIT protocol."""
from typing import NamedTuple, Union

from ._numbers import BASE_TYPES, SIGNED


class Base(NamedTuple):
    """A base type: its name and code, what its items stand for, the bytes of one, and the item that stands for no
    value."""

    name: str
    code: int
    kind: int
    width: int
    invalid: int

    @property
    def range(self) -> tuple[int, int]:
        """The least and the greatest item that is a value."""
        bits = 8 * self.width
        if self.kind == SIGNED:
            return -(2 ** (bits - 1)), 2 ** (bits - 1) - 2
        return (0, 2**bits - 2) if self.invalid else (1, 2**bits - 1)


BASES = tuple(Base(*row) for row in BASE_TYPES)
BYTE = next(base for base in BASES if base.name == "byte")
_BY_NAME: dict[str, Base] = {base.name: base for base in BASES}
_BY_CODE: dict[int, Base] = {base.code: base for base in BASES}


def base_of(code: int) -> Base:
    """The base type of a code; any other code is as byte, and keeps its number."""
    return _BY_CODE.get(code) or BYTE._replace(code=code)


def base_named(told: Union[str, int]) -> Base:
    """The base type that a caller names, by its name or its code."""
    if isinstance(told, str) and told in _BY_NAME:
        return _BY_NAME[told]
    if isinstance(told, int) and not isinstance(told, bool) and 0 <= told <= 255:
        return base_of(told)
    if not isinstance(told, (str, int)):
        raise ValueError("a base type is a name or a code")
    raise ValueError(f"{told!r} is no base type: {', '.join(_BY_NAME)}, or a code of 0 to 255")
