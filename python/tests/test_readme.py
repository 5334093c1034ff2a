"""The listings of python/README.md run as they stand."""

import os
import re
import subprocess
import sys
import tempfile
import unittest

from common import HOME, PACKAGE, PROGRAM, needs_library, read

LISTING = re.compile(r"^```(python|sh)\n(.*?)^```$", re.M | re.S)


class Readme(unittest.TestCase):
    def test_listings(self):
        listings = LISTING.findall(read(os.path.join(PACKAGE, "README.md")).decode())
        self.assertEqual([kind for kind, _ in listings], ["python", "python", "sh", "python"])
        path = f"{HOME}:{os.environ['PATH']}"
        environment = {**os.environ, "PATH": path, "PYTHONPATH": PACKAGE, "HPKEBATCH": PROGRAM}
        with tempfile.TemporaryDirectory() as folder:
            with open(os.path.join(folder, "report.pdf"), "wb") as file:
                file.write(b"a report")
            for kind, text in listings:
                words = [sys.executable, "-c", text] if kind == "python" else ["sh", "-e", "-c", text]
                with self.subTest(text):
                    if "Sender(" in text:
                        needs_library()
                    subprocess.run(words, cwd=folder, env=environment, capture_output=True, check=True)
            self.assertEqual(read(os.path.join(folder, "inbox/report.pdf")), b"a report")


if __name__ == "__main__":
    unittest.main()
