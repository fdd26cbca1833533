"""What is lent of a chunk, a hold or a body can't be kept longer: code that does so doesn't compile, and the same code that doesn't, does."""

import pathlib
import re
import shutil
import subprocess
import tempfile
import unittest

from lib.repository import TOP

LIBRARIES = ("host_names", "byte_view", "chunk_reads", "range_spec", "byte_slices", "http_wire", "range_reply")

# The lines that drop the owner of what is still used are marked, and the one that lends a vector which ends with its function.
PROGRAM = """\
//! Uses what it is lent, before its owner is dropped and after it.
#![tactic(auto)]

use byte_view::{Chunk, Hold, Part, Pieces};
use range_reply::FileBody;
use std::alloc::{AllocError, Global};

fn view_used_in_time(chunk: Chunk) -> usize {
    let view = chunk.view();
    let count = view.len();
    drop(chunk);
    count
}

fn view_used_too_late(chunk: Chunk) -> usize {
    let view = chunk.view();
    drop(chunk); // too early
    view.len()
}

fn bytes_used_too_late(chunk: Chunk) -> usize {
    let bytes = chunk.view().slice(0, 0).bytes();
    drop(chunk); // too early
    bytes.len()
}

fn piece_used_in_time(hold: Hold) -> Option<usize> {
    let piece = hold.pieces(0, 0).next()?;
    let count = piece.len();
    drop(hold);
    Some(count)
}

fn piece_used_too_late(hold: Hold) -> Option<usize> {
    let piece = hold.pieces(0, 0).next()?;
    drop(hold); // too early
    Some(piece.len())
}

fn pieces_used_too_late(hold: Hold) -> usize {
    let pieces = hold.pieces(0, 0);
    drop(hold); // too early
    pieces.count()
}

fn part_used_in_time(body: FileBody) -> Option<usize> {
    let part = body.parts().next()?;
    let count = part.bytes().len();
    drop(body);
    Some(count)
}

fn part_used_too_late(body: FileBody) -> Option<usize> {
    let part = body.parts().next()?;
    drop(body); // too early
    Some(part.bytes().len())
}

fn piece_as_it_lies(mut pieces: Pieces<'_>) -> Option<Part<'_>> {
    let piece = pieces.next()?;
    Some(Part::Lent(piece))
}

fn pieces_copied(alloc: Global, pieces: Pieces<'_>) -> Result<Part<'_>, AllocError> {
    let mut copy = Vec::new(alloc);
    for piece in pieces {
        copy.extend_from_slice(piece)?;
    }
    Ok(Part::Lent(copy.as_slice())) // a copy of its own
}

fn main() {}
"""


class Lending(unittest.TestCase):
    def setUp(self):
        room = tempfile.TemporaryDirectory(prefix="filehost-test-")
        self.addCleanup(room.cleanup)
        self.top = pathlib.Path(room.name)
        shutil.copy(TOP / "HANDLES", self.top)
        listed = [line for line in (TOP / "crates.txt").read_text().splitlines() if line.partition(":")[0] in LIBRARIES]
        (self.top / "crates.txt").write_text("\n".join([*listed, "borrower: byte_view range_reply\n"]))
        for name in LIBRARIES:
            for part in ("src", "specs", "proofs"):
                shutil.copytree(TOP / "crates" / name / part, self.top / "crates" / name / part)

    def told_of(self, program):
        """What the compiler says of a program, which nothing is proved of."""
        source = self.top / "crates" / "borrower" / "src" / "main.rt"
        source.parent.mkdir(parents=True)
        source.write_text(program)
        ran = subprocess.run(["rt", "try"], cwd=source.parent.parent, stdin=subprocess.DEVNULL, capture_output=True, text=True, timeout=600)
        self.assertNotEqual(ran.returncode, 0)
        return ran.stdout + ran.stderr

    def test_nothing_is_lent_beyond_its_owner(self):
        told = re.findall(r"^src/main\.rt:(\d+):\d+: error\[([\w-]+)\]: ([^:]*)", self.told_of(PROGRAM), re.MULTILINE)
        drops = [(at, re.fullmatch(r" *drop\((\w+)\); // too early", line)) for at, line in enumerate(PROGRAM.splitlines(), 1)]
        wanted = [(str(at), "borrow-e0505", f"cannot move out of `{drop[1]}` because it is borrowed") for at, drop in drops if drop]
        self.assertEqual(len(wanted), 5)
        copies = [at for at, line in enumerate(PROGRAM.splitlines(), 1) if line.endswith("// a copy of its own")]
        wanted += [(str(at), "borrow-e0515", "cannot return value referencing local variable `copy`") for at in copies]
        self.assertEqual(told, wanted)
