"""What the library returns."""
import ctypes
from typing import Optional

from ._numbers import BLOCK, GOOD, REFUSED, TEXT, TRUNCATED
from ._reasons import BLOCK_REASONS, REASONS


class Answer(ctypes.Structure):
    """What `check` found. It is true where the bytes are a FIT file or several, one after another; as text it is the
    finding, as 'ok' or 'refused at byte 3258: FileSum'.

    good    whether they are
    files   how many files they are, where they are good; else 0
    place   the place of the byte that is refused, or where the bytes end too soon, counted from 0; of blocks where that
            begins which is refused; else None
    reason  the name of the reason, as 'FileSum', where a byte is refused, or as 'Items', where a block is; else None
    row     of a text: the first row that isn't allowed where it is, counted from 1; else None
    explanation  what is wrong, as a sentence; None where they are good
    column  of a text: its first cell that isn't allowed there, counted from 1; None where the row as a whole is refused
    block   of blocks: the first that can't stand where it is, counted from 0; else None
    """

    _fields_ = [
        ("_status", ctypes.c_uint32),
        ("_reason", ctypes.c_uint32),
        ("_place", ctypes.c_uint64),
        ("_row", ctypes.c_uint64),
        ("_column", ctypes.c_uint64),
        ("files", ctypes.c_uint64),
    ]
    _status: int
    _reason: int
    _place: int
    _row: int
    _column: int
    files: int

    @property
    def good(self) -> bool:
        return self._status == GOOD

    @property
    def place(self) -> Optional[int]:
        return self._place if self._status in (REFUSED, TRUNCATED, BLOCK) else None

    @property
    def reason(self) -> Optional[str]:
        return self._why[0] if self._status in (REFUSED, BLOCK) else None

    @property
    def _why(self) -> tuple[str, str]:
        """The name of the reason, and what it says; nothing of other findings."""
        reasons = {REFUSED: REASONS, BLOCK: BLOCK_REASONS}.get(self._status)
        return reasons[self._reason - 1] if reasons else ("", "")

    @property
    def row(self) -> Optional[int]:
        return self._row if self._status == TEXT else None

    @property
    def column(self) -> Optional[int]:
        return self._column or None

    @property
    def block(self) -> Optional[int]:
        return self._row if self._status == BLOCK else None

    @property
    def explanation(self) -> Optional[str]:
        return (
            None,
            f"The byte at {self.place} {self._why[1]}.",
            f"The bytes end at {self.place}, before the file does.",
            "Memory was refused, which says nothing of the bytes.",
            f"The cell in row {self.row}, column {self.column} isn't allowed there."
            if self.column
            else f"Row {self.row} isn't allowed there.",
            "The rows are those of files that have no bytes: one is too long, or has zeros in place of a checksum of "
            "0.",
            "The stream is closed.",
            "There is no such kind of stream.",
            f"Block {self.block}, which begins at {self.place}, {self._why[1]}.",
        )[self._status]

    def __eq__(self, other: object) -> bool:
        return isinstance(other, Answer) and bytes(self) == bytes(other)

    def __hash__(self) -> int:
        return hash(bytes(self))

    def __bool__(self) -> bool:
        return self.good

    def __str__(self) -> str:
        return (
            "ok",
            f"refused at byte {self.place}: {self.reason}",
            f"truncated at byte {self.place}",
            "out of memory",
            f"row {self.row} column {self.column} refused" if self.column else f"row {self.row} refused",
            "no file has such rows",
            "closed",
            "no such kind",
            f"block {self.block} at {self.place} refused: {self.reason}",
        )[self._status]

    def __repr__(self) -> str:
        return f"<gazhdor.Answer: {self}>"
