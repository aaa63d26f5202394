"""The audit of a store: what is asked of the program, and what counts as agreeing."""
import contextlib
import io
import unittest

import support
from regtuma import audit

# What the program prints, and the status of the audit.
AUDITS = [("blocks 3\naudit agrees", 0), ("blocks 3\naudit agrees\nrefused 701", 0), ("blocks 3\naudit differs 2.0", 1),
          ("blocks 3\nflags differ 2", 1), ("blocks 3\naudit agrees\nrefused 702 block 4", 1), ("refused 701", 1), ("", 1)]


class Audits(unittest.TestCase):
    def setUp(self):
        self.folder = support.Folder()
        self.addCleanup(self.folder.close)

    def told(self, printed: str, configuration: str = support.CONFIGURATION) -> tuple[int, str]:
        """The status and the text of an audit where the program prints this, and its words."""
        program = self.folder.path / "ledger"
        program.write_text(f"#!/bin/sh\necho \"$*\" > {self.folder.path}/words\nprintf '{printed}'\nexit 1\n")
        program.chmod(0o700)
        out = io.StringIO()
        with contextlib.redirect_stdout(out), contextlib.redirect_stderr(out):
            status = audit.main([self.folder.write(configuration)])
        return status, out.getvalue()

    def test_what_agrees(self):
        for printed, status in AUDITS:
            with self.subTest(printed=printed):
                self.assertEqual(self.told(printed), (status, f"{printed}\n"))

    def test_the_words(self):
        at = self.folder.path
        self.told("audit agrees")
        self.assertEqual((at / "words").read_text(), f"audit {at}/genesis.json {at}/chain.store\n")
        self.folder.file("modules.json")
        self.told("audit agrees", support.CONFIGURATION.replace('keys = "maker.key"', 'modules = "modules.json"'))
        self.assertEqual((at / "words").read_text(), f"audit {at}/genesis.json {at}/chain.store --modules {at}/modules.json\n")

    def test_what_cannot_be_done(self):
        self.assertEqual(audit.main(["nowhere.toml"]), 2)
        self.assertEqual(self.told("", "organisation = 1")[0], 2)
