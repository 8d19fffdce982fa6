#!/usr/bin/env python3
"""What bodies.py reads of an edit: checks/gate/bodies_test.py."""

import tempfile
import unittest
from pathlib import Path

from bodies import BadEdit, applied, read_body

SOURCE = """\
const LIMIT: u64 = 8;

/// Free.
pub(crate) fn free(a: u64) -> u64
    ensures { result ≡ a }
{
    if a == 0 {
        return a;
    }
    a
}

/// Behind a function.
const BEHIND: u64 = 9;

impl<C: Core> Flow<C> where C: Send {
    pub fn push(&mut self) {
        self.count += 1;
    }

    const IN_IMPL: u64 = 3;
}

impl<C> tcp::Core for Wired<C> {
    fn push(&mut self) {
        self.count += 2;
    }
}
"""


class Edits(unittest.TestCase):
    def setUp(self):
        room = tempfile.TemporaryDirectory()
        self.addCleanup(room.cleanup)
        self.folder = Path(room.name)
        (self.folder / "src/inner").mkdir(parents=True)
        (self.folder / "src/inner/part.rt").write_text(SOURCE, encoding="utf-8")

    def body(self, name, *pairs, file="src/inner/part.rt"):
        path = self.folder / f"{name}.edit"
        lines = [f"file: {file}", *(line for old, new in pairs for line in (f"old: {old}", f"new: {new}"))]
        path.write_text("\n".join([*lines, ""]), encoding="utf-8")
        return read_body(path, "it", self.folder)

    def told(self, body, name):
        return bool(body.verdict.fullmatch(name))

    def test_free_function(self):
        body = self.body("a", ("        return a;", "        return 1;"))
        self.assertEqual(body.function, "inner::part::free")
        self.assertTrue(self.told(body, "it::inner::part::free"))
        self.assertFalse(self.told(body, "it::part::free"))

    def test_method(self):
        body = self.body("b", ("self.count += 1;", "self.count += 3;"))
        self.assertEqual(body.function, "Flow::push")
        self.assertTrue(self.told(body, "it::flow::Flow::push"))
        self.assertFalse(self.told(body, "it::wired::WiredCore::push"))

    def test_method_of_a_trait(self):
        body = self.body("c", ("self.count += 2;", "self.count += 3;"))
        self.assertTrue(self.told(body, "it::wired::WiredCore::push"))
        self.assertEqual(body.proofs, "WiredCore/push/")

    def test_what_is_in_no_function(self):
        for old in ("const LIMIT: u64 = 8;", "const BEHIND: u64 = 9;", "const IN_IMPL: u64 = 3;"):
            with self.assertRaises(BadEdit):
                self.body("d", (old, "const OTHER: u64 = 1;"))

    def test_what_is_there_twice_or_not(self):
        for old in ("self.count", "self.size"):
            with self.assertRaises(BadEdit):
                self.body("e", (old, "other"))

    def test_together(self):
        one = self.body("f", ("self.count += 1;", "self.count += 2;"))
        other = self.body("g", ("self.count += 2;", "self.count += 1;"))
        text = applied([one, other], self.folder)["src/inner/part.rt"]
        self.assertLess(text.index("self.count += 2;"), text.index("self.count += 1;"))
        with self.assertRaises(BadEdit):
            applied([one, self.body("h", ("count += 1", "count += 4"))], self.folder)

    def test_right(self):
        self.assertTrue(self.body("right_i", ("self.count += 1;", "self.count += 1 + 0;")).is_right)


if __name__ == "__main__":
    unittest.main()
