#!/usr/bin/env python3
"""Wrong programs, seen to be caught by running: wrong.py

What a program opens and that it writes at all is in no contract. So the report program, the shelf program and the one that makes test loads are
changed here, one line at a time, in a scratch copy of the sources; `rt try` builds and runs each without a proof, and what it writes has to differ
from what is stored. The programs as they are have to write what is stored. Some are told from the right one under a condition alone, which is made
in the copy. Exits 1 and says what went wrong otherwise.
"""
import os
import pathlib
import re
import shutil
import subprocess
import sys
import tempfile
from collections.abc import Callable
from concurrent.futures import ThreadPoolExecutor
from typing import NamedTuple

TOP = pathlib.Path(__file__).resolve().parents[2]
sys.path.insert(0, str(TOP / "tools"))
import model  # noqa: E402


class Wrong(NamedTuple):
    """A wrong program: what is wrong, the program, and a text of its source, or of the library's that is named, with what stands in its place."""

    label: str
    program: str
    old: str
    new: str
    library: str = ""


GAP_READ_OVER = """    let loaded = load(rt, i, &mut bytes[at..end]);
    let found = match loaded {
        Ok(size) => Ok(size),
        Err(ReadError::Absent) => Ok(0),
        Err(ReadError::Unreadable) => Err(ReadError::Unreadable),
    };"""
EMPTY_FOR_A_GAP = """    if size == 0 {
        return Err(ReadError::Absent);
    }
    outcome(&mut file, size, buf.len())"""
OPENED_AS_0 = """    match opened {
        Ok(file) => std::os::fd::AsRawFd::as_raw_fd(file) > 0,
        Err(_) => false,
    }"""
READS = """    let first = load(rt, Role::Pattern, "pattern.cir", &mut pattern[..]);
    let second = load(rt, Role::Board, "board.cir", &mut board[..]);
"""
NAMES_SWAPPED = """    let first = load(rt, Role::Pattern, "board.cir", &mut pattern[..]);
    let second = load(rt, Role::Board, "pattern.cir", &mut board[..]);
"""
PIECE = "    if output::write_whole(rt, failure, bytes).is_none() {"
HANDED = "output::hand(rt, failure, handed, "
FINDER = [
    Wrong("the two names swapped", "finder", READS, NAMES_SWAPPED, "finder_read"),
    Wrong("a line more", "finder", PIECE, '    let _more = output::write_whole(rt, failure, b"hello\\n");\n' + PIECE, "finder_pieces"),
    Wrong("silent", "finder", "    let run = report_files(", "    if true {\n        return;\n    }\n    let run = report_files("),
    Wrong("nothing opened", "finder", "    as_read(input::load(rt, name, buf))", "    as_read(Err(ReadError::Absent))", "finder_read"),
    Wrong("nothing printed", "finder", PIECE, "    if false {", "finder_pieces"),
    Wrong("a piece twice", "finder", PIECE, "    let _once = output::write_whole(rt, failure, bytes);\n" + PIECE, "finder_pieces"),
]
SHELF = [
    Wrong("the other standard stream", "shelf", "take_some(&rt.stdout(), ", "take_some(&rt.stderr(), ", "output"),
    Wrong("a file that opens taken for one that does not", "shelf", "    opened.is_ok()", "    opened.is_err()", "input"),
    Wrong("silent", "shelf", "    let _ended = shelve(\n", "    if true {\n        return;\n    }\n    let _ended = shelve(\n"),
    Wrong("nothing opened", "shelf", "    input::load(rt, name, buf)", "    Err(ReadError::Absent)", "shelf_files"),
    Wrong("nothing printed", "shelf", HANDED + "text)", "true"),
    Wrong("the lines twice", "shelf", "    " + HANDED + "text)", "    let _once = output::write_whole(rt, failure, text);\n    " + HANDED + "text)"),
    Wrong("a line more", "shelf", "    " + HANDED + "text)", '    let _more = output::write_whole(rt, failure, b"99\\n");\n    ' + HANDED + "text)"),
    Wrong("a gap read over", "shelf", "    let found = load(rt, i, &mut bytes[at..end]);", GAP_READ_OVER, "shelf_files"),
    Wrong("an empty file taken for a gap", "shelf", "    outcome(&mut file, size, buf.len())", EMPTY_FOR_A_GAP, "input"),
]
LOADER = [
    Wrong("silent", "loader", "    let run = print_asked_for(", "    if true {\n        return;\n    }\n    let run = print_asked_for("),
    Wrong("a word read twice", "loader", "    let second = hear(rt, 2, n);", "    let second = hear(rt, 3, n);", "loader_words"),
    Wrong("nothing printed", "loader", HANDED + "bytes)", "true"),
    Wrong("the file twice", "loader", "    if " + HANDED + "bytes)", "    let _once = output::write_whole(rt, failure, bytes);\n    if " + HANDED + "bytes)"),
]


def replace(source: pathlib.Path, old: str, new: str) -> str:
    """Puts one text in another's place, and gives the source as it was."""
    before = source.read_text()
    if before.count(old) != 1:
        sys.exit(f"wrong.py: {old!r} stands {before.count(old)} times in {source}: mend the test")
    source.write_text(before.replace(old, new))
    return before


def store(crates: pathlib.Path, files: list[bytes]) -> None:
    """A shelf of these files is stored."""
    crate = crates / "shelf"
    shutil.rmtree(crate / "data")
    (crate / "data").mkdir()
    for number, data in enumerate(files):
        (crate / "data" / f"p{number:02}.cir").write_bytes(data)
    (crate / "stdout").write_bytes(model.shelf_text(files))


def part(kind: int) -> bytes:
    """The file of a pattern of one part."""
    return model.encode(model.Packed([kind], [], [], [0]), 2)


def store_seventeen(crates: pathlib.Path) -> None:
    """There are 17 files, and no gap."""
    store(crates, [part(kind) for kind in range(17, 0, -1)])


def store_long(crates: pathlib.Path) -> None:
    """A file is longer than the buffer: it is refused by its length, and the next one is read."""
    store(crates, [part(2) + bytes(5000), part(1)])


def close_input(crates: pathlib.Path) -> None:
    """Standard input is closed, so that a file opens as 0. Only this copy may call C: no crate of the tree lists libc."""
    replace(crates.parent / "crates.txt", "\nshelf: ", "\nshelf: libc ")
    replace(crates / "shelf" / "src" / "main.rt", "fn main(rt: HostRuntime) {\n", "fn main(rt: HostRuntime) {\n    libc::close(0);\n")


def fail_reading(crates: pathlib.Path) -> None:
    """Each file fails where it would end, at a read of some bytes: nothing is printed."""
    fails = "    if more.len() > 0 {\n        return Err(io::Error::from_raw_os_error(5));\n    }\n    file.read(more)\n"
    replace(crates / "input" / "src" / "lib.rt", "    file.read(more)\n", fails)
    (crates / "shelf" / "stdout").write_bytes(b"")


CONDITIONS = [
    (store_seventeen, Wrong("the 17th file read", "shelf", "    for i in 0..FILES {", "    for i in 0..FILES + 1 {", "shelf_files")),
    (store_long, Wrong("a full buffer read on, and another not", "shelf", "    if size == room {", "    if size != room {", "input")),
    (close_input, Wrong("a file that opens as 0 taken for unreadable", "shelf", "    opened.is_ok()", OPENED_AS_0, "input")),
    (fail_reading, Wrong("a last read of no byte", "shelf", "    let mut more = [0u8; 1];", "    let mut more = [0u8; 0];", "input")),
]


def scratch(where: str) -> pathlib.Path:
    """A copy of the sources and of the stored runs."""
    copy = pathlib.Path(tempfile.mkdtemp(dir=where))
    shutil.copytree(TOP / "crates", copy / "crates", ignore=shutil.ignore_patterns("proofs", "must-fail", "out"))
    shutil.copy(TOP / "crates.txt", copy)
    return copy


def try_program(copy: pathlib.Path, program: str) -> tuple[bool, str]:
    """Builds a program of the copy without a proof and runs it on what is stored: whether it writes what is stored, and what rt says."""
    crate = copy / "crates" / program
    words = ["rt", "try"]
    for path in sorted(crate.glob("data/*")):
        words += ["--data", f"{path.name}=data/{path.name}"]
    if (crate / "args").exists():
        words += ["--", *(crate / "args").read_text().split()]
    tried = subprocess.run(words, cwd=crate, stdin=subprocess.DEVNULL, capture_output=True, check=False)
    return tried.stdout == (crate / "stdout").read_bytes() and tried.returncode == 0, tried.stderr.decode(errors="replace")


def check_right(copy: pathlib.Path, program: str) -> None:
    """The program as it is writes what is stored."""
    is_stored, said = try_program(copy, program)
    if not is_stored:
        sys.exit(f"wrong.py: {program} as it is does not write what is stored:\n{said}")


def check_wrong(copy: pathlib.Path, wrong: Wrong) -> None:
    """A wrong program is built, and what it writes is not what is stored."""
    crate = copy / "crates" / (wrong.library or wrong.program) / "src"
    source = crate / ("lib.rt" if wrong.library else "main.rt")
    right = replace(source, wrong.old, wrong.new)
    is_stored, said = try_program(copy, wrong.program)
    source.write_text(right)
    if is_stored:
        sys.exit(f"wrong.py: {wrong.program}, {wrong.label}: what is stored does not tell it from the right one")
    if not re.search(r"^run=(ended|fault)", said, re.M):  # a fault, as an index out of bounds, ends it without an answer
        sys.exit(f"wrong.py: {wrong.program}, {wrong.label}: it was not built:\n{said}")


def check_stored(where: str, wrongs: list[Wrong]) -> int:
    """Wrong forms of one program, on what is stored. Says how many."""
    copy = scratch(where)
    check_right(copy, wrongs[0].program)
    for wrong in wrongs:
        check_wrong(copy, wrong)
    return len(wrongs)


def check_condition(where: str, prepare: Callable[[pathlib.Path], None], wrong: Wrong) -> int:
    """A wrong program under a condition of its own."""
    copy = scratch(where)
    prepare(copy / "crates")
    check_right(copy, wrong.program)
    check_wrong(copy, wrong)
    return 1


def main() -> None:
    """Tries the right programs and the wrong ones, as many at a time as there are processors."""
    with tempfile.TemporaryDirectory() as where, ThreadPoolExecutor(os.cpu_count()) as pool:
        jobs = [pool.submit(check_stored, where, wrongs) for wrongs in (FINDER, SHELF, LOADER)]
        jobs += [pool.submit(check_condition, where, *condition) for condition in CONDITIONS]
        count = sum(job.result() for job in jobs)
    print(f"{count} wrong programs are caught by what they write")


if __name__ == "__main__":
    main()
