"""The border report over any number of files: pages of the library, and beside them which files were refused and why, and where the
largest misses are."""

from __future__ import annotations

import ctypes
import marshal
import os
import select
import signal
from codecs import BOM_UTF8

from ._header import LIMITS
from .library import HEADER, MOST_MISS, SIGNALS, TYPE_CHECKING, UNIT, Refused, functions

if TYPE_CHECKING:
    from typing import Any, Callable, Dict, Iterator, List, NoReturn, Optional, Sequence, Tuple

PAGE_NUMBERS, MAX_PAGE_MESHES = LIMITS["PAGE_NUMBERS"], LIMITS["MAX_PAGE_MESHES"]
# a page's numbers
MESHES, CORNERS, BORDERS, FIRST_REFUSAL, FIRST_MISS = 0, 1, 2, 3, 17
REFUSAL_NUMBERS = [*range(1, 14), 28]
CONDITIONS = PAGE_NUMBERS - FIRST_MISS
# what a processor is given at a time at least and at most: a power of two, so that pages are made of whole ones
LEAST_CHUNK, MOST_CHUNK = 16, 256
NUMBER_BYTES = 4
LONGEST_FILE = HEADER + 12 * LIMITS["MAX_VERTICES"] + LIMITS["MAX_FACES"] + 4 * LIMITS["MAX_CORNERS"]
ENDING = ".dms"


Page = ctypes.c_uint64 * PAGE_NUMBERS
_Counts = ctypes.c_uint16 * (LIMITS["MAX_SIDES"] + 1)


class Found:
    """What a run of files showed."""

    def __init__(self) -> None:
        self.pages: List[List[int]] = []
        """A page for each 4,096 names, less where the run did not come so far; files that could not be read are on none."""
        self.largest: List[Tuple[int, Optional[int]]] = [(0, None)] * CONDITIONS
        """For each condition the largest miss, over 2^30 of a tick, and the first file that has it, by its place among the names."""
        self.refused: List[Tuple[int, int, int]] = []
        """Of each refused file its place among the names, and the refusal's number and place."""
        self.unreadable: List[Tuple[int, str]] = []
        """Of each file that could not be read its place among the names, and why."""
        self.names = 0
        """How many names the run came to."""

    def add(self, chunk: Found) -> None:
        """Adds what the names after those so far showed."""
        if self.names % MAX_PAGE_MESHES == 0:
            self.pages.append([0] * PAGE_NUMBERS)
        page = Page(*self.pages[-1])
        _call("merge", Page(*chunk.pages[0]), page)
        self.pages[-1] = list(page)
        for condition, (miss, at) in enumerate(chunk.largest):
            if at is not None and miss > self.largest[condition][0]:
                self.largest[condition] = (miss, self.names + at)
        self.refused.extend((self.names + at, number, place) for at, number, place in chunk.refused)
        self.unreadable.extend((self.names + at, words) for at, words in chunk.unreadable)
        self.names += chunk.names

    def total(self) -> List[int]:
        """The pages as one, which may count more meshes than a page does."""
        columns = list(zip(*self.pages)) or [(0,)] * PAGE_NUMBERS
        return [(sum if at < FIRST_MISS else max)(column) for at, column in enumerate(columns)]


def _call(call: str, *arguments: Any) -> None:
    """Calls the library without numpy, which takes as long to start as hundreds of files."""
    place = ctypes.c_uint64()
    answer = functions[call](*arguments, ctypes.byref(place))
    if answer:
        raise Refused(answer, place.value)


class Lost(Exception):
    """A process of the report was ended from outside."""


def report_on(names: Sequence[str]) -> Found:
    """What at most 4,096 files show."""
    page = Page()
    found = Found()
    add, place = functions["report"], ctypes.c_uint64()
    lent = ctypes.byref(place)
    # as bytes, which are compared without being made numbers
    misses = memoryview(page).cast("B")[FIRST_MISS * ctypes.sizeof(ctypes.c_uint64):]
    largest = bytes(misses)
    corners = 0
    for at, name in enumerate(names):
        try:
            data, length = read_file(name)
        except (OSError, ValueError) as error:
            found.unreadable.append((at, getattr(error, "strerror", None) or str(error)))
            continue
        answer = add(data, len(data), length, page, lent)
        if answer:
            raise Refused(answer, place.value)
        if page[CORNERS] == corners:
            found.refused.append((at, *_refusal(data, length)))
            continue
        corners = page[CORNERS]
        if misses != largest:
            for condition, miss in enumerate(page[FIRST_MISS:]):
                if miss > found.largest[condition][0]:
                    found.largest[condition] = (miss, at)
            largest = bytes(misses)
    found.pages, found.names = [list(page)], len(names)
    return found


def _refusal(data: bytes, length: int) -> Tuple[int, int]:
    """The number and the place by which a file is refused."""
    counts = [ctypes.byref(ctypes.c_uint64()) for _ in range(3)]
    try:
        _call("survey", data, len(data), length, *counts, _Counts(), len(_Counts()), _Counts(), len(_Counts()))
    except Refused as refused:
        return refused.number, refused.place
    raise AssertionError("a mesh without corners was accepted")


def read_file(name: str) -> Tuple[bytes, int]:
    """A file's bytes, as many as a mesh may have, and its length."""
    file = os.open(name, os.O_RDONLY)
    try:
        data = os.read(file, LONGEST_FILE + 1)
        return data, len(data) if len(data) <= LONGEST_FILE else max(len(data), os.fstat(file).st_size)
    finally:
        os.close(file)


def chunks_of(names: Sequence[str], jobs: int, meanwhile: Callable[[], None] = lambda: None) -> Iterator[Found]:
    """What the files show, chunk by chunk in the order of the names, on so many processors: this process works, and further ones do.
    `meanwhile` is called once, when the further ones are at work."""
    # chunks become smaller towards the end, so that all processors come to it at nearly the same time
    chunks: List[Sequence[str]] = []
    at, size = 0, MOST_CHUNK
    while at < len(names):
        while size > LEAST_CHUNK and 2 * jobs * size > len(names) - at:
            size //= 2
        chunks.append(names[at: at + size])
        at += size
    workers: Dict[int, int] = {}
    """The process at the other end of each pipe."""
    ready: Dict[int, Found] = {}
    # the numbers of the chunks in a file without a name: the processes read it at a common place, so that each number is read once
    numbers = os.memfd_create("chunks")
    try:
        os.write(numbers, b"".join(number.to_bytes(NUMBER_BYTES, "little") for number in range(len(chunks))))
        os.lseek(numbers, 0, os.SEEK_SET)
        _start(chunks, min(jobs, len(chunks)) - 1, numbers, workers)
        meanwhile()
        for number in range(len(chunks)):
            while number not in ready:
                own = os.read(numbers, NUMBER_BYTES)
                if own:
                    chunk = int.from_bytes(own, "little")
                    ready[chunk] = report_on(chunks[chunk])
                elif not workers:
                    raise Lost
                for pipe in select.select(list(workers), [], [], 0 if own else None)[0]:
                    _take(pipe, workers, ready)
            yield ready.pop(number)
    finally:
        os.close(numbers)
        for pipe, process in workers.items():
            os.kill(process, signal.SIGKILL)
            os.waitpid(process, 0)
            os.close(pipe)


def _start(chunks: Sequence[Sequence[str]], count: int, numbers: int, workers: Dict[int, int]) -> None:
    """Starts processes that report on chunks. multiprocessing would do, and takes as long to import as hundreds of files."""
    # an interrupt goes to all processes of a terminal, as its end does; it is for the first one to end the others
    held = signal.pthread_sigmask(signal.SIG_BLOCK, SIGNALS)
    try:
        for _ in range(count):
            ours, theirs = os.pipe()
            process = os.fork()
            if process == 0:
                _work(chunks, numbers, theirs)
            os.close(theirs)
            workers[ours] = process
    finally:
        signal.pthread_sigmask(signal.SIG_SETMASK, held)


def _work(chunks: Sequence[Sequence[str]], numbers: int, pipe: int) -> NoReturn:
    """What a process does: reports on chunk after chunk, and writes what it found."""
    status = 1
    try:
        for number in (signal.SIGINT, signal.SIGHUP):
            signal.signal(number, signal.SIG_IGN)
        signal.signal(signal.SIGTERM, signal.SIG_DFL)
        signal.pthread_sigmask(signal.SIG_UNBLOCK, SIGNALS)
        with open(pipe, "wb") as out:
            chunk = os.read(numbers, NUMBER_BYTES)
            while chunk:
                found = marshal.dumps(vars(report_on(chunks[int.from_bytes(chunk, "little")])))
                out.write(chunk + len(found).to_bytes(NUMBER_BYTES, "little") + found)
                out.flush()
                chunk = os.read(numbers, NUMBER_BYTES)
        status = 0
    except BrokenPipeError:
        pass  # the first process has ended
    except Exception:
        import traceback

        traceback.print_exc()
    finally:
        os._exit(status)


def _take(pipe: int, workers: Dict[int, int], ready: Dict[int, Found]) -> None:
    """Takes what a process has written of a chunk; or its end, which is in order when nothing was left for it to do."""
    head = os.read(pipe, 2 * NUMBER_BYTES)
    if not head:
        status = os.waitpid(workers.pop(pipe), 0)[1]
        os.close(pipe)
        if status:
            raise Lost
        return
    length = int.from_bytes(head[NUMBER_BYTES:], "little")
    data = bytearray()
    while len(data) < length:
        more = os.read(pipe, length - len(data))
        if not more:
            raise Lost
        data += more
    found = Found()
    vars(found).update(marshal.loads(data))
    ready[int.from_bytes(head[:NUMBER_BYTES], "little")] = found


def where(name: str, misses: Sequence[Tuple[int, int]]) -> Dict[int, Tuple[int, int, str]]:
    """For each pair of a condition and a miss the lowest corner of a file's mesh, with the side and the coordinate, that has this miss,
    by condition; those are left out that the file, being no longer what it was, does not have."""
    from .borders import Borders

    try:
        borders = Borders(*_mesh(*read_file(name)))
    except (OSError, ValueError, Refused):
        return {}
    sought = dict(misses)
    found: Dict[int, Tuple[int, int, str]] = {}
    for corner in borders.corners:
        for side in range(2):
            for axis in range(3):
                for condition, miss in enumerate(borders.misses(corner, side, axis)):
                    if sought.get(condition) == abs(miss):
                        found[condition] = (corner, side, "xyz"[axis])
                        del sought[condition]
        if not sought:
            break
    return found


def _mesh(data: bytes, length: int) -> Tuple[List[List[int]], List[int], List[int]]:
    """The four lists of a file's mesh, its links and its control points."""
    kinds = ((ctypes.c_int32, 3 * LIMITS["MAX_VERTICES"]), (ctypes.c_uint8, LIMITS["MAX_FACES"]), (ctypes.c_uint16, LIMITS["MAX_CORNERS"]),
             (ctypes.c_uint8, 2 * LIMITS["MAX_CORNERS"]))
    room: List[Any] = [(kind * count)() for kind, count in kinds]
    counts = [ctypes.c_uint64() for _ in room]
    _call("decode", data, len(data), length, *(word for one in room for word in (one, len(one))), *map(ctypes.byref, counts))
    lists = [word for one, count in zip(room, counts) for word in (one, count.value)]
    corners = counts[2].value
    links: Any = (ctypes.c_uint16 * corners)()
    _call("link", *lists, links, corners)
    numbers: Any = (ctypes.c_int32 * (LIMITS["NUMBERS_PER_CORNER"] * corners))()
    _call("build", *lists, links, corners, 0, corners, numbers, len(numbers))
    return [one[:count.value] for one, count in zip(room, counts)], links[:], numbers[:]


# ---- names


def listed(data: bytes) -> List[str]:
    """The names of a list, one a line, with or without carriage returns and a mark of UTF-8 before, or each ended by a zero byte."""
    data = data[len(BOM_UTF8):] if data.startswith(BOM_UTF8) else data
    lines = data.split(b"\0") if b"\0" in data else [line.rstrip(b"\r") for line in data.split(b"\n")]
    return [os.fsdecode(line) for line in lines if line]


def expanded(names: Sequence[str]) -> Tuple[List[str], List[str], List[Tuple[str, str]]]:
    """The files that names of files and folders stand for, each once; those named more than once; and what is wrong with folders.
    A folder stands for the .dms files in it and in its folders, by name."""
    files: Dict[str, None] = {}
    twice: Dict[str, None] = {}
    wrong: List[Tuple[str, str]] = []

    def take(name: str) -> None:
        (twice if name in files else files)[name] = None

    for name in names:
        if not os.path.isdir(name):
            take(os.path.normpath(name))
            continue
        inside = []
        for folder, folders, held in os.walk(name, onerror=lambda error: wrong.append((error.filename, error.strerror or str(error)))):
            folders.sort()
            begin = os.path.normpath(folder)
            begin = "" if begin == os.curdir else os.path.join(begin, "")
            inside += [begin + one for one in held if one.lower().endswith(ENDING)]
        if not inside:
            wrong.append((name, f"no file in it has a name that ends in {ENDING}"))
        for one in sorted(inside):
            take(one)
    return list(files), list(twice), wrong


# ---- telling


def as_table(found: Found, names: Sequence[str], places: bool = True) -> Dict[str, Any]:
    """All of it as what JSON can hold; the places of the largest misses only where these are wanted."""
    total = found.total()
    largest: List[Dict[str, Any]] = [{"condition": condition + 1, "miss": miss, "ticks": in_ticks(miss)}
                                     for condition, (miss, _) in enumerate(found.largest)]
    files = {at for _, at in found.largest if at is not None}
    for at in files if places else ():
        of_file = [(condition, miss) for condition, (miss, other) in enumerate(found.largest) if other == at]
        there = where(names[at], of_file)
        for condition, _ in of_file:
            largest[condition]["file"] = names[at]
            largest[condition].update(zip(("corner", "side", "coordinate"), there.get(condition, ())))
    return {"meshes": total[MESHES], "corners": total[CORNERS], "borders": total[BORDERS],
            "refused_by": dict(zip(map(str, REFUSAL_NUMBERS), total[FIRST_REFUSAL:FIRST_MISS])), "largest": largest,
            "refused": [{"file": names[at], "number": number, "place": place, "words": str(Refused(number, place))}
                        for at, number, place in found.refused],
            "unreadable": [{"file": names[at], "words": words} for at, words in found.unreadable],
            "pages": found.pages, "names": len(names), "reported": found.names}


def in_words(table: Dict[str, Any]) -> List[str]:
    """The same as lines."""
    pages = len(table["pages"])
    lines = [f"meshes offered: {table['meshes']:,}" + (f" ({pages} pages of at most {MAX_PAGE_MESHES:,})" if pages > 1 else ""),
             f"corners built: {table['corners']:,}", f"borders met: {table['borders']:,}", f"refused: {len(table['refused']):,}"]
    lines += [f"  by {number}: {count:,}" for number, count in table["refused_by"].items() if count]
    for told in table["largest"]:
        at = f": {_line(told['file'])}" if "file" in told else ""
        at += f", corner {told['corner']}, side {told['side']}, {told['coordinate']}" if "corner" in told else ""
        lines.append(f"largest miss of condition {told['condition']}: {told['ticks']} of {MOST_MISS} ticks{at}")
    for key, title in (("refused", "refused files"), ("unreadable", "files that could not be read")):
        if table[key]:
            lines += [f"{title}:"] + [f"  {_line(one['file'])}: {one['words']}" for one in table[key]]
    if table["twice"]:
        lines += ["named more than once, counted once:"] + [f"  {_line(name)}" for name in table["twice"]]
    return lines


def page_lines(found: Found) -> List[str]:
    """The lines that `report merge` of the Rattle program reads, one for each page."""
    return ["page " + " ".join(map(str, page)) for page in found.pages]


def in_ticks(miss: int) -> str:
    """A number over 2^30 of a tick in ticks, to thousandths, halves up: as the Rattle program `report` prints it."""
    thousandths = (2000 * miss + UNIT) // (2 * UNIT)
    return f"{thousandths // 1000}.{thousandths % 1000:03}"


def _line(name: str) -> str:
    return name.replace("\n", "\\n")
