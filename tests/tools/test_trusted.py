"""dev/trusted: what it takes from what rattle and nm print."""
import importlib.machinery
import importlib.util
import sys
import types
import unittest

from trial import TOP

PROOF = """\
fn clio::main: proved
axioms libc: 2 reached of the 128 declared
  libc::close
  libc::heap::rattle_alloc   reached
  libc::write   reached
axioms os: 1 reached of the 22 declared
  os::c::rattle_arg   reached
  os::c::rattle_arg_count
logic=proved functions=9 axioms=3 main=none sum=dac8208d650f15bf libraries-built=trusted statements=trusted
"""

NAMES = """\
                 w __cxa_finalize@GLIBC_2.2.5
                 U write@GLIBC_2.2.5
                 U open@GLIBC_2.2.5
                 U __rattle_keep_place
"""


def loaded() -> types.ModuleType:
    """The program as a module."""
    loader = importlib.machinery.SourceFileLoader("trusted", str(TOP / "dev/trusted"))
    spec = importlib.util.spec_from_loader("trusted", loader)
    assert spec
    module = importlib.util.module_from_spec(spec)
    sys.modules["trusted"] = module
    loader.exec_module(module)
    return module


class Trusted(unittest.TestCase):
    def setUp(self) -> None:
        self.program = loaded()

    def test_proof(self) -> None:
        """The line that ends the proof, and the C functions that it rests on, but no other."""
        self.assertEqual([line for line in self.program.proof_lines(PROOF) if not line.startswith("#")], [
            "logic=proved functions=9 axioms=3 main=none sum=dac8208d650f15bf libraries-built=trusted statements=trusted",
            "libc::heap::rattle_alloc", "libc::write", "os::c::rattle_arg"])

    def test_no_proof(self) -> None:
        for said in "", "logic=not-proved\n":
            with self.subTest(said), self.assertRaises(SystemExit):
                list(self.program.proof_lines(said))

    def test_names(self) -> None:
        self.assertEqual(self.program.taken(NAMES), ["__cxa_finalize", "__rattle_keep_place", "open", "write"])

    def test_below(self) -> None:
        known = {"a": [], "b": ["a", "csv"], "c": ["b", "a"], "d": ["c"]}
        self.assertEqual(sorted(self.program.below(known, "c")), ["a", "b"])
        self.assertEqual(sorted(self.program.below(known, "d")), ["a", "b", "c"])


if __name__ == "__main__":
    unittest.main()
