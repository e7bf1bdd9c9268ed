"""Tests of tools/refusals: which growth is refused, and which answers have no explanation."""

import pathlib
import shutil
import subprocess
import tempfile
import unittest

from loading import load_tool

refusals = load_tool("refusals")
# It grows three times, and ends with the status that is given where a growth is refused.
PROGRAM = """
#include <stdlib.h>
#include <unistd.h>
int main(int many, char **words) {
  for (int at = 0; at < 3; at++)
    if (!malloc(16 << at)) return atoi(words[1]);
  return write(1, "done\\n", 5) != 5;
}
"""


@unittest.skipUnless(shutil.which("cc"), "there is no C compiler")
class Refused(unittest.TestCase):
    def setUp(self):
        folder = tempfile.TemporaryDirectory()
        self.addCleanup(folder.cleanup)
        self.folder = pathlib.Path(folder.name)
        source, program = self.folder / "grows.c", self.folder / "grows"
        source.write_text(PROGRAM, encoding="ascii")
        subprocess.run(["cc", "-O0", "-o", str(program), str(source)], check=True)
        self.runner = refusals.Runner(program, refusals.build(self.folder), self.folder)

    def test_each_growth_in_turn(self):
        case = refusals.Case("grows", ["6"], b"")
        growths, plain = self.runner.growths(case)
        self.assertEqual((growths, plain), (3, refusals.Outcome(0, b"done\n")))
        self.assertEqual([self.runner.refuse(case, plain, at) for at in (1, 2, 3, 4)], ["refused"] * 3 + ["went on"])

    def test_another_answer_is_told(self):
        case = refusals.Case("grows", ["3"], b"")
        _, plain = self.runner.growths(case)
        with self.assertRaisesRegex(refusals.Unexplained, "grows: 3, growth 2: status 3"):
            self.runner.refuse(case, plain, 2)


class Places(unittest.TestCase):
    def test_all_or_spread(self):
        self.assertEqual(refusals.places(4, 9), [1, 2, 3, 4])
        self.assertEqual(refusals.places(101, 3), [1, 51, 101])
        self.assertEqual(refusals.places(101, 1), [1])

    def test_each_form_has_its_turn(self):
        forms = {case.words[0] for case in refusals.cases(1)}
        self.assertEqual(forms, {"run", "check", "progress", "make", "trial"})


if __name__ == "__main__":
    unittest.main()
