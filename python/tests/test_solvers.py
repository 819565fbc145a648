"""How the program and the library are found, and what is told where they behave badly."""

import ctypes
import functools
import os
import pickle
import shutil
import subprocess
import threading
from pathlib import Path
from typing import Any, Callable, List

import pytest

import product_mix._program
from product_mix import (
    Auction, DeviceError, OutOfMemory, ProductMixError, ProgramError, ProgramNotFound, check, prices, solve,
)
from product_mix._library import LIBRARY_NAME, _run, usual_library
from product_mix._program import find_program, run_program
from product_mix._solver import Solver

from conftest import EXAMPLES
from test_values import STALLS

MEGABYTES = 1 << 20
Script = Callable[[str], str]
# Long enough for a busy machine and a slow build of the program; what hangs takes so long, and no longer.
SECONDS = 300


# -------------------------------------------------------------------------------------------------------- how it is found

def test_nothing_is_found(bare: pytest.MonkeyPatch, tmp_path: Path) -> None:
    bare.setenv("PATH", str(tmp_path))
    bare.setattr("product_mix._program.BUILT", tmp_path / "product_mix")
    with pytest.raises(ProgramNotFound, match="./mix solve.*PRODUCT_MIX"):
        solve(STALLS)


def test_the_order_in_which_it_is_looked_for(bare: pytest.MonkeyPatch, tmp_path: Path) -> None:
    places = {}
    for name in ("argument", "variable", "path", "checkout"):
        place = tmp_path / name / "product_mix"
        place.parent.mkdir()
        place.write_text("#!/bin/sh\nprintf 'price,0\\nend\\n'\n")
        place.chmod(0o755)
        places[name] = str(place)
    bare.setattr("product_mix._program.BUILT", Path(places["checkout"]))
    bare.setenv("PATH", os.path.dirname(places["path"]))
    bare.setenv("PRODUCT_MIX", places["variable"])
    assert find_program(places["argument"]) == places["argument"]
    assert find_program() == places["variable"]
    bare.delenv("PRODUCT_MIX")
    assert find_program() == places["path"]
    bare.setenv("PATH", str(tmp_path))
    assert find_program() == places["checkout"]


def test_what_is_named_has_to_be_there(bare: pytest.MonkeyPatch, tmp_path: Path) -> None:
    with pytest.raises(ProgramNotFound, match="no program /nowhere/mix, which program= names"):
        solve(STALLS, program="/nowhere/mix")
    with pytest.raises(ProgramNotFound, match="/nowhere/lib.so, which library= names, can't be loaded"):
        solve(STALLS, library="/nowhere/lib.so")
    broken = tmp_path / "libproduct_mix.so"
    broken.write_bytes(b"no library")
    bare.setenv("PRODUCT_MIX_LIBRARY", str(broken))
    with pytest.raises(ProgramNotFound, match="PRODUCT_MIX_LIBRARY"):
        solve(STALLS)
    bare.delenv("PRODUCT_MIX_LIBRARY")
    bare.setenv("PRODUCT_MIX", "/nowhere/mix")
    with pytest.raises(ProgramNotFound, match="/nowhere/mix, which PRODUCT_MIX names"):
        solve(STALLS)
    with pytest.raises(ProgramNotFound, match="libc.so.6, which library= names, can't be loaded: it is another library"):
        solve(STALLS, library="libc.so.6")


# --------------------------------------------------------------------------------------------- programs that behave badly

def failure(lines: str, script: Script, text: Any = STALLS) -> ProductMixError:
    with pytest.raises(ProductMixError) as caught:
        solve(text, program=script(lines))
    return caught.value


def test_a_program_that_is_killed(script: Script) -> None:
    error = failure("echo outcome,1\nkill -9 $$\n", script)
    assert isinstance(error, ProgramError) and error.status == -9 and error.printed == "outcome,1\n"
    assert "was killed by SIGKILL" in str(error)


@pytest.mark.parametrize("printed, status", [
    ("", 0), ("hello", 0), ("outcome,1\n", 0), ("outcome,1\ncleared\nprice,1,2\nreturn,0,0\n", 0),
    ("price,1,2\nend\n", 0), ("outcome,1\ncleared\nprice,16,x\n", 0),
    ("outcome,1\ncleared\nprice,1,2\nreturn,0,0\nend\nend\n", 0),
    ("outcome,1\ncleared\nprice,1,2\nreturn,0,0\nend\n", 1),
    ("outcome,1\nrefused,Bo,-,inside,1,2,-1\nend\n", 0),
    ("fault,x,header\n", 3), ("fault,1,header\n", 4), ("limit,1,goods\n", 3), ("", 3), ("", 77), ("\377\376", 0),
    ("error,words\n", 2),
])
def test_a_program_that_prints_nonsense(printed: str, status: int, script: Script) -> None:
    told = printed.replace("\n", "\\n").replace("\377", "\\377").replace("\376", "\\376")
    error = failure("printf '%s'\necho why >&2\nexit %d\n" % (told, status), script)
    assert isinstance(error, ProgramError) and error.status == status and error.told == "why\n"
    assert "it told: why" in str(error)
    assert pickle.loads(pickle.dumps(error)).printed == error.printed


def test_a_fault_of_a_row_that_is_not_there(script: Script) -> None:
    error = failure("echo fault,99,number\nexit 3\n", script)
    assert "row 99" in str(error)


@pytest.mark.parametrize("lines, kind, why", [
    ("echo error,read\nexit 5\n", DeviceError, "read"),
    ("exit 6\n", DeviceError, "write"),
    ("exit 7\n", OutOfMemory, "memory"),
])
def test_devices_and_memory(lines: str, kind: type, why: str, script: Script) -> None:
    error = failure(lines, script)
    assert type(error) is kind and why in str(error)


def test_a_program_that_cannot_be_run(tmp_path: Path) -> None:
    path = tmp_path / "program"
    path.write_text("no program\n")
    path.chmod(0o755)
    with pytest.raises(ProgramNotFound, match="can't be run"):
        solve(STALLS, program=path)


def in_time(call: Callable[[], Any]) -> Any:
    """What the call gives; it has to end in time."""
    results: List[Any] = []

    def run() -> None:
        try:
            results.append(call())
        except Exception as error:
            results.append(error)

    thread = threading.Thread(target=run, daemon=True)
    thread.start()
    thread.join(SECONDS)
    assert results, "it hangs"
    return results[0]


LONG = b"mix,1\n" * (16 * MEGABYTES // 6)


def test_much_goes_in_and_out_at_once(script: Script) -> None:
    program = script("exec cat\n")
    reply = in_time(lambda: run_program(program, ["solve"], LONG))
    assert reply.printed == LONG and reply.status == 0
    assert isinstance(in_time(lambda: solve(LONG, program=program)), ProgramError)


@pytest.mark.parametrize("lines", [
    "exec head -c 16777216 /dev/zero\n",  # prints much and reads nothing
    "exec head -c 16777216 /dev/zero >&2\n",  # tells much
    "exec <&-\nsleep 0.1\n",  # closes its input
    "exec >&-\ncat > /dev/null\n",  # closes its output
    "exit 0\n",
])
def test_a_program_that_does_not_listen(lines: str, script: Script) -> None:
    program = script(lines)
    assert isinstance(in_time(lambda: solve(LONG, program=program)), ProgramError)


@pytest.mark.parametrize("lines", ["exec yes\n", "exec yes >&2\n"])
def test_a_program_that_prints_without_end(lines: str, script: Script, monkeypatch: pytest.MonkeyPatch) -> None:
    monkeypatch.setattr(product_mix._program, "MOST_PRINTED", 8 * MEGABYTES)
    program = script(lines)
    error = in_time(lambda: solve(LONG, program=program))
    assert isinstance(error, ProgramError) and "without end" in str(error)


def test_a_text_at_the_limit_of_bytes() -> None:
    reply = in_time(lambda: run_program(find_program(), ["solve"], b"\n" * (16 * MEGABYTES)))
    assert (reply.status, reply.printed) == (3, b"fault,1,end\n")


# ------------------------------------------------------------------------------------------------------------ the library

PROTOTYPE = ctypes.CFUNCTYPE(
    ctypes.c_uint32, ctypes.c_void_p, ctypes.c_size_t, ctypes.c_void_p, ctypes.c_size_t, ctypes.c_void_p,
    ctypes.c_size_t, ctypes.POINTER(ctypes.c_size_t))


class StandIn:
    """A function of the library's form, which notes its calls and gives a reply, where there is room for it."""

    def __init__(self, status: int, reply: bytes) -> None:
        self.status, self.reply = status, reply
        self.calls: List[Any] = []
        self.function = PROTOTYPE(self._call)

    def _call(self, word: int, word_size: int, text: int, text_size: int, out: int, room: int, needed: Any) -> int:
        self.calls.append((ctypes.string_at(word, word_size), ctypes.string_at(text, text_size), room))
        needed[0] = len(self.reply)
        if len(self.reply) <= room:
            ctypes.memmove(out, self.reply, len(self.reply))
        return self.status


@pytest.mark.parametrize("reply", [b"", b"short", b"\0with\0nuls", b"l" * 100_000])
def test_a_call_of_the_library(reply: bytes) -> None:
    stand_in = StandIn(1, reply)
    assert _run(stand_in.function, ["trial", "7"], b"te\0xt") == (1, reply, "")
    assert [(word, text) for word, text, _ in stand_in.calls] == [(b"trial 7", b"te\0xt")] * len(stand_in.calls)
    # A reply for which there was too little room is asked for again, with room enough.
    assert len(stand_in.calls) == (2 if len(reply) > stand_in.calls[0][2] else 1)
    assert stand_in.calls[-1][2] >= len(reply)


def test_the_library_goes_first(bare: pytest.MonkeyPatch, script: Script) -> None:
    stand_in = StandIn(0, b"price,3,4\nend\n")
    bare.setattr("product_mix._solver.usual_library", lambda: lambda words, text: _run(stand_in.function, words, text))
    assert prices(STALLS) == {"inside": 3, "outside": 4}
    # What is named goes before what is found.
    other = script("printf 'price,5,6\\nend\\n'\n")
    assert prices(STALLS, program=other) == {"inside": 5, "outside": 6}
    bare.setenv("PRODUCT_MIX", other)
    assert prices(STALLS) == {"inside": 5, "outside": 6}


def test_a_library_that_does_not_know_the_command(bare: pytest.MonkeyPatch, script: Script) -> None:
    stand_in = StandIn(2, b"error,words\n")
    library = functools.partial(_run, stand_in.function)
    bare.setattr("product_mix._solver.usual_library", lambda: library)
    bare.setattr("product_mix._solver.find_program", lambda program: script("printf 'price,5,6\\nend\\n'\n"))
    # One that was only found leaves it to the program.
    assert prices(STALLS) == {"inside": 5, "outside": 6}
    bare.setattr("product_mix._solver.find_library", lambda named: library)
    with pytest.raises(ProgramError, match="knows no command 'prices'"):
        prices(STALLS)


COMPILED = r"""
#include <stddef.h>
#include <stdint.h>
#include <stdio.h>
#include <string.h>

uint32_t product_mix_version(uint32_t part) { return part == 0 ? VERSION : 77; }

uint32_t product_mix_run(const uint8_t *words, size_t words_length, const uint8_t *text, size_t text_length, uint8_t *out,
                         size_t room, size_t *needed) {
    char reply[64] = "error,words\n";
    uint32_t status = 2;
    if (words_length == 6 && memcmp(words, "prices", 6) == 0) {
        int last = text[text_length - 1];
        snprintf(reply, sizeof reply, "price,%zu,%d\nend\n", text_length, last);
        status = 0;
    }
    *needed = strlen(reply);
    if (*needed <= room) memcpy(out, reply, *needed);
    return status;
}
"""


def compiled(folder: Path, version: int) -> str:
    """A library of the header's two functions, which answers ``prices`` with the text's length and last byte."""
    compiler = shutil.which("cc")
    if compiler is None:
        pytest.skip("there is no compiler for C")
    folder.mkdir()
    source, library = folder / "library.c", folder / "libproduct_mix.so.1"
    source.write_text(COMPILED)
    subprocess.run([compiler, "-shared", "-fPIC", "-DVERSION=%d" % version, "-o", library, source], check=True)
    return str(library)


def test_a_compiled_library(bare: pytest.MonkeyPatch, tmp_path: Path) -> None:
    library = compiled(tmp_path / "first", 1)
    wanted = {"inside": len(STALLS.text()), "outside": ord("\n")}
    assert prices(STALLS, library=library) == wanted
    with pytest.raises(ProgramError, match="knows no command 'solve'"):
        solve(STALLS, library=library)
    bare.setenv("PRODUCT_MIX_LIBRARY", library)
    assert prices(STALLS) == wanted
    bare.delenv("PRODUCT_MIX_LIBRARY")
    # Beside the package, where no variable names it.
    bare.setattr("product_mix._library.__file__", str(tmp_path / "first" / "_library.py"))
    bare.setattr("product_mix._solver.usual_library", usual_library.__wrapped__)
    if not is_installed():
        assert prices(STALLS) == wanted


def is_installed() -> bool:
    """Whether the linker finds a library of this version, which goes before one that stands beside the package."""
    try:
        ctypes.CDLL(LIBRARY_NAME)
    except OSError:
        return False
    return True


def test_a_library_of_another_version(bare: pytest.MonkeyPatch, tmp_path: Path) -> None:
    library = compiled(tmp_path / "second", 2)
    with pytest.raises(ProgramNotFound, match="can't be loaded: its functions have the version 2, and 1 is wanted"):
        prices(STALLS, library=library)


def test_a_library_without_memory(bare: pytest.MonkeyPatch) -> None:
    stand_in = StandIn(7, b"")
    bare.setattr("product_mix._solver.usual_library", lambda: lambda words, text: _run(stand_in.function, words, text))
    with pytest.raises(OutOfMemory):
        solve(STALLS)


def test_both_ways_give_the_same(way: Any) -> None:
    many_goods = Auction(list("ABCDEFGHI"), [0] * 9, [0] * 9)
    for text in (STALLS, "mix;1\n", b"", b"mix,1\n\0\n", many_goods, STALLS.bid("X", 0, [1, 1])):
        assert outcome_or_error(text, way) == outcome_or_error(text, {"program": find_program()})


def outcome_or_error(text: Any, way: Any) -> str:
    try:
        outcome = solve(text, **way)
        return "%r %s" % (outcome, check(text, outcome, **way))
    except ProductMixError as error:
        return "%r" % error


@pytest.mark.parametrize("folder", EXAMPLES, ids=[folder.name for folder in EXAMPLES])
def test_the_examples(folder: Path, way: Any) -> None:
    reply = Solver(**way).ask((folder / "command").read_text().split(), (folder / "auction.csv").read_bytes())
    status = folder / "status"
    assert reply.printed == (folder / "expected").read_bytes()
    assert reply.status == (int(status.read_text()) if status.exists() else 0)


def test_many_threads(way: Any) -> None:
    wanted = solve(STALLS)
    found: List[Any] = []
    threads = [threading.Thread(target=lambda: found.extend(solve(STALLS, **way) for _ in range(20))) for _ in range(8)]
    for thread in threads:
        thread.start()
    for thread in threads:
        thread.join(SECONDS)
    assert found == [wanted] * 160
