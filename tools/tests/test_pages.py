"""docs/TOOLS.md and docs/TRACES.md: each block of a terminal shows what its command prints; how headings are named."""
import re
import shlex
import subprocess
import unittest

import support
from ntlpc_tool import main, pages, program

TOOLS, TRACES = (support.ROOT / "docs" / name for name in ("TOOLS.md", "TRACES.md"))
BUILT = "crates/ntlpc/out/ntlpc"
BLOCK = re.compile(r"^```console\n\$ (.*)\n((?:.*\n)*?)```$", re.M)


class Tools(unittest.TestCase):
    def test_the_words_are_listed(self):
        named = re.findall(r"^\| `([a-z]+) [^|]*\|", TOOLS.read_text(encoding="utf-8"), re.M)
        self.assertEqual(sorted(named), sorted(main.all_words()))

    @support.needs_program
    def test_each_block_is_what_is_printed(self):
        for page in (TOOLS, TRACES):
            blocks = BLOCK.findall(page.read_text(encoding="utf-8"))
            self.assertGreater(len(blocks), 3)
            for command, wanted in blocks:
                with self.subTest(command):
                    words = ["sh", "-c", command.replace(BUILT, shlex.quote(program.find()))]
                    ran = subprocess.run(words, cwd=support.ROOT, capture_output=True, text=True, timeout=60)
                    self.assertEqual(ran.stdout, wanted)


class Headings(unittest.TestCase):
    def test_a_link_names_them_as_browsers_of_code_do(self):
        text = "# A page\n## `raise`: it ends\n```\n# none\n```\n### Who-is it?\n## Again\n## Again\n## Again!\n"
        wanted = {"A page": "a-page", "`raise`: it ends": "raise-it-ends", "Who-is it?": "who-is-it"}
        self.assertEqual(pages.anchors(text), {**wanted, "Again": "again", "Again!": "again-2"})


if __name__ == "__main__":
    unittest.main()
