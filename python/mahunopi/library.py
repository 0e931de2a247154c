"""The shared library's functions, what a refusal is, and numbers that several modules share. Nothing here needs numpy, which takes longer
to start than the library takes for hundreds of meshes."""

from __future__ import annotations

import ctypes
import os
import signal

from ._header import CALLS, REFUSALS

TYPE_CHECKING = False
"""Names that only checkers of types need are imported where this holds, and checkers take it to hold. `typing` has it too, and takes as
long to import as a hundred files of a report."""
if TYPE_CHECKING:
    from typing import Dict, List, Optional, Tuple

TICKS = 256
"""The ticks of a grid step."""
UNIT = 1 << 30
"""A miss of the border report is a whole number over this of a tick."""
MOST_MISS = 13
"""No miss is above 13 ticks; the library proves it of every mesh."""
LARGEST_COORDINATE = 65_536
DEFAULT_LARGEST = 60_000
"""What the largest coordinate of an imported model becomes, in grid steps."""
MOST_SPACING = 1 << 27
"""The largest spacing of triangles, in ticks: no control edge is longer."""
CONTROL = [[0, 1, 2, 3, 4, 25, 26, 27, 28, 6, 7, 8, 30, 31, 12], [24, 19, 14, 9, 4, 40, 36, 32, 28, 18, 13, 8, 35, 31, 12],
           [24, 23, 22, 21, 20, 40, 39, 38, 37, 18, 17, 16, 35, 34, 12], [0, 5, 10, 15, 20, 25, 29, 33, 37, 6, 11, 16, 30, 34, 12]]
"""The control points of each side's triangle, in rows from the side to the centre, each from the head, as the header has them."""
SIGNALS = (signal.SIGINT, signal.SIGTERM, signal.SIGHUP)
"""The signals by which somebody ends a command."""
MARK = b"DMS"
HEADER = len(MARK) + 4 * 2
"""The bytes of a .dms file before its lists."""

_NUMBER = {"int32_t": ctypes.c_int32, "size_t": ctypes.c_size_t, "uint64_t": ctypes.c_uint64}
_library = ctypes.CDLL(os.path.join(os.path.dirname(os.path.abspath(__file__)), "libmahunopi.so"))
functions: Dict[str, ctypes._CFuncPtr] = {}  # type: ignore[name-defined]
"""Every call of the header by its name without mahunopi_: it answers 0 or a refusal's number."""
for _name, _parameters in CALLS.items():
    functions[_name] = getattr(_library, "mahunopi_" + _name)
    functions[_name].restype = ctypes.c_uint32
    functions[_name].argtypes = [ctypes.c_void_p if pointer else _NUMBER[kind] for kind, pointer, _, _ in _parameters]


class Refused(Exception):
    """An input that a call turned down: the refusal's number, the lowest place where it applies, its name in the header, and its
    words. As text it is one line: `refused 12 at vertex 0: a vertex is named by fewer than 3 or more than 16 corners`. Where a model
    was imported, `causes` has the points, edges or faces that cause it, each as its points by the model's own numbers."""

    def __init__(self, number: int, place: int, words: Optional[str] = None, place_name: Optional[str] = None) -> None:
        self.number = number
        self.place = place
        self.causes: List[Tuple[int, ...]] = []
        self.name, self.words, self.place_name = REFUSALS[number]
        if words is not None:
            self.words = words
        if place_name is not None:
            self.place_name = place_name
        super().__init__(number, place, words, place_name)

    def __str__(self) -> str:
        where = f" at {self.place_name} {self.place}" if self.place_name else ""
        return f"refused {self.number}{where}: {self.words}"


class Unreadable(Exception):
    """A file that is none of its format, in words."""
