"""The command `mahunopi`: models get in, what a mesh is is told in words, and its surface comes out and is looked at."""

from __future__ import annotations

import argparse
import contextlib
import errno
import io
import math
import os
import re
import signal
import stat
import sys

# what only one of the commands needs, numpy above all, is imported there: a report starts in half the time
from ._header import LIMITS, __version__
from .library import DEFAULT_LARGEST, LARGEST_COORDINATE, MOST_SPACING, SIGNALS, TYPE_CHECKING, Refused, Unreadable

if TYPE_CHECKING:
    from fractions import Fraction
    from typing import Any, Callable, Iterable, Iterator, List, NoReturn, Optional, Tuple, Union

    from .calls import Mesh
    from .importing import Imported

MAX_PARTS = LIMITS["MAX_PARTS"]
REFUSED, FAILED = 1, 2
INTERRUPTED, BROKEN_PIPE = 130, 141
MOST_JOBS = 1024
DEFAULT_LEVEL = 4
FORMATS = "OBJ, PLY, STL and GLB"

DESCRIPTION = """\
Coarse closed meshes and their smooth surfaces. FILE is a name, or - for standard input.
The exit status is 0 when all is done, 1 when a mesh is refused, 2 for wrong usage and for files that cannot be read or written."""


# argparse looks for a translation of each of its words, which nobody has made: that takes as long as a hundred files of a report
argparse._ = str  # type: ignore[attr-defined]


class Parser(argparse.ArgumentParser):
    """Says what is wrong in one line, and takes -1e-05 for a number."""

    def __init__(self, *words: Any, **named: Any) -> None:
        # argparse makes a formatter for each argument that is added, and to ask how wide the terminal is takes as long as a hundred files
        super().__init__(*words, formatter_class=lambda prog: argparse.RawDescriptionHelpFormatter(prog, width=80), **named)
        self._negative_number_matcher = re.compile(r"-(\d+\.?\d*|\.\d+)([eE][-+]?\d+)?$")

    def format_help(self) -> str:
        self.formatter_class = argparse.RawDescriptionHelpFormatter
        return super().format_help()

    def error(self, message: str) -> NoReturn:
        self.exit(FAILED, f"{self.prog}: {message} ({self.prog} --help says more)\n")

    def _print_message(self, message: str, file: Any = None) -> None:
        """Help and version are written as all else is, so that a closed pipe ends it quietly."""
        if file is sys.stderr:
            _note(_one_line(message.rstrip("\n")))
        elif _guarded("standard output", lambda: _say(message.rstrip("\n"))):
            raise SystemExit(FAILED)


def parser() -> Parser:
    def command(name: str, does: str, example: str, count: Union[str, int] = "+",
                what: str = "a file, or - for standard input") -> argparse.ArgumentParser:
        made = commands.add_parser(name, help=does, description=does[0].upper() + does[1:] + ".", epilog="example:\n  " + example)
        made.add_argument("files", nargs=count, metavar="FILE", help=what)
        made.set_defaults(run_all=_run_each)
        return made

    whole = Parser(prog="mahunopi", description=DESCRIPTION, epilog="example:\n  mahunopi import hull.obj -o hull.dms && mahunopi info hull.dms")
    whole.add_argument("--version", action="version", version=f"mahunopi {__version__}")
    commands = whole.add_subparsers(dest="command", metavar="COMMAND", required=True, parser_class=Parser)

    info = command("info", "say in words what a .dms file or an OFF text of whole numbers holds", "mahunopi info meshes/*.dms")
    info.add_argument("-o", dest="output", default="-", metavar="FILE", help="where to write all of it; without -o, standard output")
    info.set_defaults(run_all=run_info)

    made = command("import", "make a .dms file of an OBJ, OFF, PLY, STL, glTF or other model",
                   "mahunopi import --step 0.01 --sharpness 40 hull.obj -o hull.dms")
    size = made.add_mutually_exclusive_group()
    size.add_argument("--largest", type=_steps, default=DEFAULT_LARGEST, metavar="STEPS",
                      help=f"the largest coordinate of the centred model in grid steps, at most {LARGEST_COORDINATE} "
                           f"(default {DEFAULT_LARGEST})")
    size.add_argument("--step", type=_length, metavar="LENGTH", help="the length of a grid step in the model's units")
    made.add_argument("--as-drawn", action="store_true",
                      help="leave out the last step, which turns all faces where they run counter-clockwise seen from outside")
    made.add_argument("--sharpness", type=_angle, metavar="DEGREES",
                      help="make a corner crisp where the model bends by more than DEGREES across both of its edges (writes a file of version 2)")
    made.add_argument("--format", metavar="NAME", help="the format, such as obj, where the file's name does not end in it")
    made.set_defaults(run=run_import)

    turned = command("turn", "turn faces that are drawn the wrong way round, and list them",
                     "mahunopi turn drawn-wrong.off -o sound.dms")
    turned.set_defaults(run=run_turn)

    for one in (made, turned):
        one.add_argument("-o", dest="output", default="-", metavar="FILE",
                         help="where to write; a folder takes a .dms file for each FILE; without -o, standard output")

    cut = command("triangles", "write the surface as one closed mesh of triangles with normals: OBJ, PLY, STL or GLB",
                  "mahunopi triangles --spacing 2000 --undo-scale 5e-05 0.0 0.0 0.0 hull.dms -o hull.ply")
    fine = cut.add_mutually_exclusive_group()
    fine.add_argument("--level", type=_level, default=DEFAULT_LEVEL, metavar="N",
                      help=f"cut the sides of each patch into N parts, 1 to {MAX_PARTS} (default {DEFAULT_LEVEL})")
    fine.add_argument("--spacing", type=_spacing, metavar="TICKS",
                      help="instead give each corner the lowest level at which its longest control edge, divided by the level, is at most TICKS "
                           "(a grid step has 256 ticks)")
    cut.add_argument("--undo-scale", type=float, nargs=4, metavar=("STEP", "X", "Y", "Z"),
                     help="write in the units of the imported model, by the four numbers that `mahunopi import` printed; without this option, "
                          "in grid steps")
    cut.add_argument("--format", type=_format, metavar="NAME", help="the format, such as ply, where the name of -o does not end in it")
    cut.add_argument("-o", dest="output", default="-", metavar="FILE",
                     help="where to write; a folder takes a file for each FILE; without -o, standard output")
    cut.set_defaults(run=run_triangles, run_all=run_all_triangles)

    viewed = command("view", "make a page that shows the surface of a mesh in a browser, or those of two meshes side by side",
                     "mahunopi view before.dms after.dms -o both.html")
    viewed.add_argument("-o", dest="output", metavar="PAGE",
                        help="where to write the page; without -o, the mesh's name with .html, in the current folder")
    viewed.set_defaults(run_all=run_view)

    reported = command("report", "report on the borders of any number of .dms files: what they hold, which of them are refused and why, and "
                       "where the largest misses are", "find archive -name '*.dms' -print0 | mahunopi report --names -", "*",
                       "a .dms file, or a folder, which stands for all .dms files in it")
    reported.add_argument("--names", metavar="LIST", help="a file that lists further files and folders, one on each line, or each ended by a "
                          "zero byte; - for standard input")
    reported.add_argument("--jobs", type=_jobs, default=len(os.sched_getaffinity(0)), metavar="N",
                          help="how many processors to use (default: all)")
    form = reported.add_mutually_exclusive_group()
    form.add_argument("--json", action="store_true", help="print the whole report as JSON")
    form.add_argument("--page", action="store_true", help="print only the lines that `report merge` of the Rattle program reads")
    reported.set_defaults(run_all=run_report)

    nested = command("nest", "list the bodies of a table of nested grids, each after the one whose grid it hangs in",
                     "mahunopi nest examples/bodies.csv -o wall.svg", 1,
                     "a CSV table, or - for standard input; its columns are a body, the body whose grid it hangs in or Sun, and the spacing of "
                     "its own grid where that is known")
    nested.add_argument("-o", dest="drawing", metavar="DRAWING", help="where to write a drawing of the nested grids, an SVG")
    nested.set_defaults(run=run_nest, output=None)
    return whole


def _steps(word: str) -> int:
    if not word.isdecimal() or not 1 <= int(word) <= LARGEST_COORDINATE:
        raise argparse.ArgumentTypeError(f"'{word}' is no whole number of 1 to {LARGEST_COORDINATE} steps")
    return int(word)


def _jobs(word: str) -> int:
    if not word.isdecimal() or not 1 <= int(word) <= MOST_JOBS:
        raise argparse.ArgumentTypeError(f"'{word}' is no number of 1 to {MOST_JOBS} processors")
    return int(word)


def _level(word: str) -> int:
    if not word.isdecimal() or not 1 <= int(word) <= MAX_PARTS:
        raise argparse.ArgumentTypeError(f"'{word}' is no level of 1 to {MAX_PARTS}")
    return int(word)


def _spacing(word: str) -> int:
    if not word.isdecimal() or not 1 <= int(word) <= MOST_SPACING:
        raise argparse.ArgumentTypeError(f"'{word}' is no whole number of 1 to {MOST_SPACING} ticks")
    return int(word)


def _format(word: str) -> str:
    _find_packages()
    from .writing import WRITERS

    if _ending(word) not in WRITERS:
        raise argparse.ArgumentTypeError(f"no writer knows the format '{word}', {FORMATS} are written")
    return _ending(word)


def _ending(word: str) -> str:
    return word.lower().lstrip(".")


def _length(word: str) -> float:
    with contextlib.suppress(ValueError):
        if 0 < float(word) < float("inf"):
            return float(word)
    raise argparse.ArgumentTypeError(f"'{word}' is no length above 0")


def _angle(word: str) -> float:
    with contextlib.suppress(ValueError):
        if 0 <= float(word) <= 180:
            return float(word)
    raise argparse.ArgumentTypeError(f"'{word}' is no angle of 0 to 180 degrees")


def main(arguments: Optional[List[str]] = None) -> int:
    """Runs the command; the answer is its exit status."""
    for stream in (sys.stdout, sys.stderr):
        if isinstance(stream, io.TextIOWrapper):
            stream.reconfigure(errors="surrogateescape")
    with contextlib.suppress(ValueError):  # a thread that is not the main one keeps its signals
        for number in SIGNALS[1:]:
            if signal.getsignal(number) != signal.SIG_IGN:  # as nohup has it
                signal.signal(number, _end)
    try:
        # ./mahunopi has signals wait from its start: numpy does not end quietly while it is imported
        with _held_back():
            asked = parser().parse_args(arguments)
            if asked.command != "report":
                _find_packages()
                from . import importing, surface  # noqa: F401
        if asked.files.count("-") > 1:
            _wrong(asked, "standard input can be read once only")
        return asked.run_all(asked)
    except KeyboardInterrupt:
        return _quiet(INTERRUPTED)
    except BrokenPipeError:
        return _quiet(BROKEN_PIPE)


def _find_packages() -> None:
    """Has imports find installed packages where Python was started without them (-S), as ./mahunopi does: a report needs none."""
    if "site" not in sys.modules:
        import site

        site.main()


def _end(number: int, frame: object) -> NoReturn:
    raise SystemExit(128 + number)


def _quiet(status: int) -> int:
    """The status, after what is still to be written was given up."""
    with contextlib.suppress(OSError):
        nothing = os.open(os.devnull, os.O_WRONLY)
        os.dup2(nothing, 1)
        os.close(nothing)
    return status


def _run_each(asked: argparse.Namespace) -> int:
    """Runs the command on one file after the other."""
    outputs = _outputs(asked)
    return max([_guarded(name, lambda: asked.run(asked, name, output)) for name, output in zip(_progress(asked.files), outputs)])


def _guarded(name: str, work: Callable[[], Any]) -> int:
    """Does the work on a file, and says what is wrong with it."""
    try:
        work()
    except (Refused, Unreadable) as error:
        _complain(name, str(error))
        return REFUSED if isinstance(error, Refused) else FAILED
    except OSError as error:
        if isinstance(error, BrokenPipeError):
            raise
        _complain(error.filename if isinstance(error.filename, str) else name, error.strerror or str(error))
        return FAILED
    except MemoryError:
        _complain(name, "there is not enough memory for it")
        return FAILED
    return 0


_bar: Any = None


def _progress(files: List[str]) -> Iterator[str]:
    """The files, with a bar where there are several and standard error is a terminal."""
    _start_bar(len(files))
    for name in files:
        yield name
        _advance(1)
    _end_bar()


def _start_bar(count: int) -> None:
    global _bar
    if count > 1 and sys.stderr is not None and sys.stderr.isatty():
        _find_packages()
        from tqdm import tqdm

        tqdm.monitor_interval = 0  # no thread: a report starts processes
        _bar = tqdm(total=count, unit="file", leave=False)


def _advance(count: int) -> None:
    if _bar is not None:
        _bar.update(count)


def _end_bar() -> None:
    global _bar
    if _bar is not None:
        _bar.close()
        _bar = None


@contextlib.contextmanager
def _without_bar() -> Iterator[None]:
    """Takes the bar off the terminal while a line is written."""
    if _bar is not None:
        _bar.clear()
    yield
    if _bar is not None:
        _bar.refresh()


def _outputs(asked: argparse.Namespace) -> List[str]:
    """Where each file's result goes."""
    output = asked.output
    ending = getattr(asked, "ending", ".dms")
    if output is None:
        return [""] * len(asked.files)
    if output != "-" and os.path.isdir(output):
        bases = [os.path.splitext(os.path.basename(name))[0] if name != "-" else "" for name in asked.files]
        if "" in bases:
            _wrong(asked, "standard input has no name that a file in a folder could have")
        if len(set(bases)) < len(bases):
            _wrong(asked, f"two files would both become {[b for b in bases if bases.count(b) > 1][0]}{ending} in {shown(output)}")
        return [os.path.join(output, base + ending) for base in bases]
    if len(asked.files) > 1:
        _wrong(asked, "several files need a folder that is there, named by -o")
    if output == "-" and sys.stdout is not None and sys.stdout.isatty():
        _wrong(asked, "standard output is a terminal, name a file by -o")
    return [output]


def _wrong(asked: argparse.Namespace, message: str) -> NoReturn:
    _complain(f"mahunopi {asked.command}", message)
    raise SystemExit(FAILED)


# ---- reading and writing


def shown(name: str) -> str:
    """A file's name as one line."""
    return "standard input" if name == "-" else _one_line(name)


def _one_line(text: str) -> str:
    """Text with its control characters, as line feeds, written out."""
    return re.sub(r"[\x00-\x1f\x7f]", lambda found: repr(found[0])[1:-1], text)


def _complain(name: str, message: str) -> None:
    _note(f"{shown(name)}: {_one_line(message)}")


def _note(line: str) -> None:
    """A line on standard error, if there is one."""
    with contextlib.suppress(OSError), _without_bar():
        if sys.stderr is not None:
            print(line, file=sys.stderr, flush=True)


def _read(name: str) -> bytes:
    if name != "-":
        with open(name, "rb") as file:
            return file.read()
    if sys.stdin is None:
        raise OSError(errno.EBADF, os.strerror(errno.EBADF), "standard input")
    try:
        return sys.stdin.buffer.read()
    except OSError as error:
        raise OSError(error.errno, error.strerror, "standard input") from None


def _write(output: str, parts: Iterable[Any]) -> None:
    """Writes the parts of a file, bytes or arrays, beside where it belongs and renames it, so that it is there whole or not at all. What
    is no plain file, as a device, is written to as it is."""
    if output == "-":
        for part in parts:
            _put(part)
        return
    import tempfile

    path = os.path.realpath(output)
    beside = ""
    try:
        there = os.stat(path).st_mode if os.path.exists(path) else None
        if there is not None and not stat.S_ISREG(there):
            with open(path, "wb") as file:
                file.writelines(parts)
            return
        with _held_back():
            handle, beside = tempfile.mkstemp(prefix=f".{os.path.basename(path)}.", dir=os.path.dirname(path))
        with open(handle, "wb") as file:
            file.writelines(parts)
        os.chmod(beside, stat.S_IMODE(there) if there is not None else 0o666 & ~_umask())
        os.replace(beside, path)
    except BaseException as error:
        with contextlib.suppress(OSError):
            os.unlink(beside)
        if isinstance(error, OSError):
            raise OSError(error.errno, error.strerror, output) from None
        raise


def _umask() -> int:
    mask = os.umask(0)
    os.umask(mask)
    return mask


def _put(data: Any) -> None:
    """Writes to standard output."""
    if sys.stdout is None:
        raise OSError(errno.EBADF, os.strerror(errno.EBADF), "standard output")
    try:
        sys.stdout.buffer.write(data)
        sys.stdout.buffer.flush()
    except BrokenPipeError:
        raise
    except OSError as error:
        _quiet(FAILED)
        raise OSError(error.errno, error.strerror, "standard output") from None


def _say(text: str, output: str = "") -> None:
    """Says what was done: on standard output, or on standard error where the result went to standard output."""
    if output == "-":
        _note(text)
    else:
        with _without_bar():
            _put((text + "\n").encode("utf-8", "surrogateescape"))


# ---- info


def run_info(asked: argparse.Namespace) -> int:
    texts: List[str] = []

    def tell(name: str) -> None:
        text = f"{shown(name)}: " + "\n  ".join(told(*_checked(name, _read(name))))
        if asked.output == "-":
            _say(text)
        else:
            texts.append(text + "\n")

    status = max([_guarded(name, lambda: tell(name)) for name in _progress(asked.files)])
    if texts:
        whole = "".join(texts).encode("utf-8", "surrogateescape")
        status = max(status, _guarded(asked.output, lambda: _write(asked.output, [whole])))
    return status


def _checked(name: str, data: bytes) -> Tuple[Mesh, int]:
    """The mesh of a .dms file or of an OFF text, which is accepted, and its version."""
    from .calls import decode, off
    from .dms import is_off

    try:
        return (off(data), 1) if is_off(data) else (decode(data), data[3])
    except Refused as refused:
        raise _in_words(refused, name, data) from None


def _in_words(refused: Refused, name: str, data: bytes) -> Refused:
    """The refusal of a file with the word that stands there, and whether `import` reads it."""
    from .dms import is_off
    from .models import read

    if refused.number not in (1, 25, 26):
        return refused
    said = _wrong_word(data, refused.place) if refused.number == 25 else refused.words
    with contextlib.suppress(Unreadable):
        form = "off" if is_off(data) else os.path.splitext(name)[1]
        if read(data, form, None if name == "-" else name).sides.size:
            said += " (mahunopi import takes it)"
    return Refused(refused.number, refused.place, said)


def _wrong_word(data: bytes, place: int) -> str:
    """What is wrong with a word of an OFF text."""
    from .dms import words
    from .models import NUMBER

    listed = words(data)
    if place >= len(listed):
        return f"the text ends after {len(listed)} words, where more are needed"
    word = listed[place].decode("utf-8", "replace")
    if not NUMBER.match(word):
        what = "no number"
    elif word.lstrip("-").isdecimal():
        what = "out of its range"
    else:
        what = "no whole number"
    return f"'{word[:40]}' is {what}"


def told(mesh: Mesh, version: int) -> List[str]:
    """What a mesh is, in words, a line for each thing."""
    from .calls import PLAIN_SHARPNESS, Kind, irregular, link, survey
    from .dms import encode
    from .importing import MOST_TOLD
    from .shape import Shape, irregular_faces, irregular_vertices
    from .surface import sizes

    counts = survey(encode(mesh))
    links = link(mesh)
    shape = Shape(mesh)
    lines = [f"{counted(counts.vertices, 'vertex', 'vertices')}, {counted(counts.faces, 'face')}, {counts.corners:,} corners, "
             f"version {version}"]
    for m, (vertices, faces) in enumerate(zip(counts.vertices_with.tolist(), counts.faces_with.tolist())):
        if vertices:
            lines.append(f"{counted(vertices, 'vertex', 'vertices')} of {m} corners")
        if faces:
            lines.append(f"{counted(faces, 'face')} of {m} sides")
    parts = shape.parts(links)
    lines.append(f"{counted(parts, 'part')}, Euler number {counts.vertices - counts.corners // 2 + counts.faces}")
    volume = shape.volume()
    sense = "faces run clockwise seen from outside" if volume < 0 else "faces run counter-clockwise seen from outside"
    lines.append(f"volume {fraction(abs(volume))} cubic steps, " + (sense if volume else "so no side is the outside"))
    low, high = shape.points.min(axis=0), shape.points.max(axis=0)
    lines.append("from " + " ".join(map(str, low)) + " to " + " ".join(map(str, high)) + " steps")
    if irregular(mesh).kind == Kind.NONE:
        lines.append("all squares")
    for numbers, name, names, has in ((irregular_faces(mesh), "face", "faces", "sides"),
                                      (irregular_vertices(mesh), "vertex", "vertices", "corners")):
        if numbers:
            more = " .." if len(numbers) > MOST_TOLD else ""
            lines.append(f"{counted(len(numbers), name, names)} not of four {has}: {' '.join(map(str, numbers[:MOST_TOLD]))}{more}")
    sharper = int((mesh.sharpness.reshape(-1, 2) != PLAIN_SHARPNESS).any(axis=1).sum())
    lines.append(f"{counted(sharper, 'corner')} of other sharpness than {PLAIN_SHARPNESS} and {PLAIN_SHARPNESS}" if sharper else
                 f"sharpness {PLAIN_SHARPNESS} and {PLAIN_SHARPNESS} throughout")
    lines.extend(f"level {level}: {points:,} points, {triangles:,} triangles" for level, points, triangles in sizes(mesh))
    return lines


def counted(number: int, name: str, names: str = "") -> str:
    """A number with what it counts."""
    return f"{number:,} {name if number == 1 else names or name + 's'}"


def fraction(number: Fraction) -> str:
    """A fraction that is not below 0, as 7 1/3."""
    whole, rest = divmod(number.numerator, number.denominator)
    part = f"{rest}/{number.denominator}" if rest else ""
    return " ".join(filter(None, [f"{whole:,}" if whole or not rest else "", part]))


# ---- import


def run_import(asked: argparse.Namespace, name: str, output: str) -> None:
    from .dms import encode
    from .importing import import_model
    from .models import read

    if name == "-" and not asked.format:
        _wrong(asked, "standard input has no name that tells the format, say it by --format")
    form = asked.format or os.path.splitext(name)[1]
    model = read(_read(name), form, None if name == "-" else name)
    made = import_model(model, asked.largest, asked.step, asked.as_drawn, asked.sharpness)
    _write(output, [encode(made.mesh, made.version)])
    _say(f"{shown(name)}: {done(made)}", output)


def done(made: Imported) -> str:
    """What an import did, in one line."""
    mesh = made.mesh
    sense = {"turned": "then all, to run clockwise seen from outside as .dms files do", "clockwise": "all run clockwise seen from outside",
             "kept": "all kept as drawn", "flat": "no side is the outside"}[made.sense]
    return (f"{counted(made.points_before, 'point')} and {counted(made.faces_before, 'face')} became "
            f"{counted(mesh.coordinates.size // 3, 'vertex', 'vertices')}, {counted(mesh.sides.size, 'face')}, "
            f"{mesh.corners.size:,} corners; --undo-scale {made.step!r} {' '.join(repr(float(x)) for x in made.centre)} undoes the scale; "
            f"{counted(made.turned, 'face')} turned, {sense}" + (f"; {made.note}" if made.note else ""))


# ---- turn


def run_turn(asked: argparse.Namespace, name: str, output: str) -> None:
    from .calls import turn
    from .dms import encode, lists

    data = _read(name)
    try:
        mesh, version = lists(data)
    except Refused as refused:
        raise _in_words(refused, name, data) from None
    faces = turn(mesh).tolist()
    _write(output, [encode(mesh, version)])
    _say(f"{shown(name)}: {len(faces):,} of {counted(mesh.sides.size, 'face')} turned" + (": " if faces else "")
         + " ".join(map(str, faces)), output)


# ---- triangles


def run_all_triangles(asked: argparse.Namespace) -> int:
    from .writing import WRITERS

    if asked.undo_scale is not None and not (all(map(math.isfinite, asked.undo_scale)) and asked.undo_scale[0] > 0):
        _wrong(asked, "--undo-scale takes the length of a step, above 0, and the centre's x, y, z")
    if asked.format is None:
        if asked.output == "-" or os.path.isdir(asked.output):
            _wrong(asked, f"{'standard output' if asked.output == '-' else 'a folder'} has no name that tells the format, say it by --format")
        asked.format = _ending(os.path.splitext(asked.output)[1])
        if asked.format not in WRITERS:
            _wrong(asked, f"the name of {shown(asked.output)} does not end in .obj, .ply, .stl or .glb, say the format by --format")
    asked.ending = "." + asked.format
    return _run_each(asked)


def run_triangles(asked: argparse.Namespace, name: str, output: str) -> None:
    from .surface import even_levels, spaced_levels, surface
    from .writing import WRITERS, Scale

    mesh, _ = _checked(name, _read(name))
    coarse = 0
    if asked.spacing is None:
        levels = even_levels(mesh, asked.level)
    else:
        levels, coarse = spaced_levels(mesh, asked.spacing)
    made = surface(mesh, levels)
    scale = Scale() if asked.undo_scale is None else Scale(asked.undo_scale[0], asked.undo_scale[1:])
    _write(output, WRITERS[asked.format](made, scale))
    low, high = int(levels.min()), int(levels.max())
    told = f"level {low}" if low == high else f"levels {low} to {high}"
    more = f", where {counted(coarse, 'corner')} would need more" if coarse else ""
    _say(f"{shown(name)}: {len(made.points):,} points, {len(made.triangles):,} triangles at {told}{more}", output)


# ---- nest


def run_nest(asked: argparse.Namespace, name: str, output: str) -> None:
    from .nested import drawing, read_table, told

    table = read_table(_read(name))
    if asked.drawing is not None:
        _write(asked.drawing, [drawing(table)])
    _say("\n".join(told(table)), asked.drawing or "")


# ---- view


def run_view(asked: argparse.Namespace) -> int:
    from .view import default_name, page

    files = asked.files
    if len(files) > 2:
        _wrong(asked, f"a page shows one mesh or two, not {len(files)}")
    if asked.output is None and "-" in files:
        _wrong(asked, "standard input has no name that a page could have, name one by -o")
    output = asked.output or default_name(files)
    if asked.output is None and os.path.exists(output) and not _is_page(output):
        _wrong(asked, f"{shown(output)} is there and is no page of this command, name another by -o")
    meshes: List[Tuple[str, Mesh]] = []
    status = max(_guarded(name, lambda: meshes.append((shown(name), _checked(name, _read(name))[0]))) for name in files)
    if status:
        return status
    return _guarded(output, lambda: _show(output, page(meshes)))


def _is_page(path: str) -> bool:
    from .view import MARK

    with contextlib.suppress(OSError), open(path, "rb") as file:
        return file.read(len(MARK)) == MARK
    return False


def _show(output: str, data: bytes) -> None:
    """Writes a page, and opens it where somebody sits in front of a display."""
    _write(output, [data])
    if output == "-":
        return
    _say(f"{shown(output)}: {len(data):,} bytes, to be opened in a browser")
    if sys.stdout.isatty() and (os.environ.get("DISPLAY") or os.environ.get("WAYLAND_DISPLAY")):
        import webbrowser
        from pathlib import Path

        webbrowser.open(Path(output).resolve().as_uri())


# ---- report


def run_report(asked: argparse.Namespace) -> int:
    from .reporting import Found, Lost, as_table, chunks_of, expanded, in_words, listed, page_lines

    names = list(asked.files)
    if "-" in names:
        _wrong(asked, "- is no file here; a list of names on standard input is --names -")
    if asked.names is None and not names:
        _wrong(asked, "name files or folders, or a list of them by --names")
    if asked.names is not None:
        status = _guarded(asked.names, lambda: names.extend(listed(_read(asked.names))))
        if status:
            return status
    files, twice, wrong = expanded(names)
    found, stopped, why = Found(), 0, "interrupted"
    try:
        with contextlib.closing(chunks_of(files, asked.jobs, lambda: _start_bar(len(files)))) as chunks:
            for chunk in chunks:
                with _held_back():
                    found.add(chunk)
                _advance(chunk.names)
    except KeyboardInterrupt:
        stopped = INTERRUPTED
    except SystemExit as ended:
        stopped = ended.code
    except Lost:
        stopped, why = FAILED, "a process was ended from outside"
    if stopped:
        # what was read is told, whatever comes meanwhile
        for number in SIGNALS:
            signal.signal(number, signal.SIG_IGN)
    _end_bar()
    table = as_table(found, files, not asked.page)
    table["unreadable"] += [{"file": name, "words": words} for name, words in wrong]
    table.update(twice=twice, finished=not stopped)
    if asked.page:
        lines = page_lines(found)
        for one in table["unreadable"]:
            _complain(one["file"], one["words"])
        for name in twice:
            _complain(name, "named more than once, counted once")
    elif asked.json:
        import json

        lines = [json.dumps(table, indent=1)]
    else:
        lines = in_words(table)
    status = _guarded("standard output", lambda: _say("\n".join(lines)) if lines else None)
    if stopped:
        _note(f"mahunopi report: {why}; this is the page of the first {found.names:,} of {len(files):,} files")
        return stopped
    return max(status, FAILED if table["unreadable"] else REFUSED if table["refused"] else 0)


@contextlib.contextmanager
def _held_back() -> Iterator[None]:
    """Has signals wait until what is begun is done."""
    signal.pthread_sigmask(signal.SIG_BLOCK, SIGNALS)
    try:
        yield
    finally:
        signal.pthread_sigmask(signal.SIG_UNBLOCK, SIGNALS)
