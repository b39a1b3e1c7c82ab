"""`seal`: a ledgers map is written, a torn end is cut after a durable copy, and what is doubtful
stays."""

import json

import device
import kit
import log_files

ONE, TWO, THREE = (1, 0, b"one"), (2, 0, b"two"), (3, 0, b"three")
# The length of a whole record and bytes that are none, and a record that is cut.
TORN = b"\0\0\0\x50torn"


class Seal(kit.Case):
    """Logs 0 to 2 are open, and log 1 ends torn."""

    def setUp(self):
        super().setUp()
        log_files.write(self.logs, {0: [ONE], 1: [TWO], 2: [THREE]}, opened=(0, 1, 2))
        with (self.logs / "1.log").open("ab") as log:
            log.write(TORN)
        self.torn = (self.logs / "1.log").read_bytes()

    def is_sealed(self, log, entry):
        return (self.logs / log_files.name_of(log)).read_bytes() == log_files.sealed_log([entry])

    def test_log_that_is_left_is_status_1(self):
        for words in (["--no-manifest"], []):
            self.setUp()
            _, errors = self.bookie("seal", *words, "--all-unsealed", self.logs, status=1)
            self.assertIn("fault log 1: torn", errors)
            self.assertIn("help:", errors)
            self.assertTrue(self.is_sealed(0, ONE) and self.is_sealed(2, THREE))
            self.assertEqual((self.logs / "1.log").read_bytes(), self.torn)

    def test_torn_end_is_cut_after_a_copy(self):
        for words in (["--no-manifest"], []):
            self.setUp()
            self.bookie("seal", *words, "--cut-torn", "--all-unsealed", self.logs)
            self.assertTrue(self.is_sealed(1, TWO))
            self.assertEqual((self.logs / "1.log.torn").read_bytes(), self.torn)
            self.assertEqual(list(self.logs.glob("*.new")), [])

    def test_copy_has_the_rights_of_the_log(self):
        for mode in (0o600, 0o640, 0o444):
            self.setUp()
            (self.logs / "1.log").chmod(mode)
            self.bookie("seal", "--cut-torn", self.logs, "1")
            self.assertEqual((self.logs / "1.log.torn").stat().st_mode & 0o777, mode)

    def test_log_of_two_names_is_left(self):
        (self.room / "other").hardlink_to(self.logs / "0.log")
        before = (self.logs / "0.log").read_bytes()
        for words in (["--no-manifest"], [], ["--cut-torn"], ["--cut-torn", "--no-manifest"]):
            _, errors = self.bookie("seal", *words, self.logs, "0", status=1)
            self.assertIn("another name", errors)
            self.assertEqual((self.logs / "0.log").read_bytes(), before, words)

    def test_file_in_the_place_of_a_copy_stays(self):
        for name, data in (
            ("1.log.torn", b"mine"),
            ("1.log.torn", self.torn[:-1] + b"x"),
            ("1.log.torn.new", b"mine"),
        ):
            path = self.logs / name
            path.write_bytes(data)
            for words in (["--no-manifest"], []):
                _, errors = self.bookie("seal", *words, "--cut-torn", self.logs, "1", status=1)
                self.assertIn("copy exists", errors)
                self.assertEqual(path.read_bytes(), data)
                self.assertEqual((self.logs / "1.log").read_bytes(), self.torn)
            path.unlink()

    def test_file_in_the_place_of_a_copy_is_named(self):
        for name in ("1.log.torn", "1.log.torn.new"):
            path = self.logs / name
            path.write_bytes(b"mine")
            for words in (["--no-manifest"], []):
                words = ["seal", *words, "--cut-torn", self.logs, "1"]
                fault, way = self.bookie(*words, status=1)[1].splitlines()
                self.assertEqual(
                    fault, f"fault copy exists: {path}: it is no copy of {self.logs}/1.log"
                )
                self.assertTrue(way.startswith(f"help: move {path} to another name"), way)
                found = json.loads(self.bookie("--json", *words, status=1)[1])
                self.assertEqual((found["log"], found["copy"]), (1, str(path)))
            path.unlink()

    def test_draft_that_differs_late_stays(self):
        """The draft of an earlier call has the first bytes of the log, but for its last."""
        log = log_files.open_log([(1, it, b"x" * 10_000) for it in range(7)], TORN)
        (self.logs / "1.log").write_bytes(log)
        draft = self.logs / "1.log.torn.new"
        for length in (32_768, 32_769, 40_000, len(log)):
            draft.write_bytes(log[: length - 1] + bytes([log[length - 1] ^ 1]))
            _, errors = self.bookie("seal", "--cut-torn", self.logs, "1", status=1)
            self.assertIn("copy exists", errors)
            self.assertEqual(draft.stat().st_size, length)
            self.assertEqual((self.logs / "1.log").read_bytes(), log)
        draft.write_bytes(log[:40_000])
        self.bookie("seal", "--cut-torn", self.logs, "1")
        self.assertEqual((self.logs / "1.log.torn").read_bytes(), log)
        self.assertFalse(draft.exists())

    @device.needs_compiler
    def test_copy_is_durable_before_the_log_is_cut(self):
        """And what is left is durable before the map is written."""
        for words in (["--no-manifest"], []):
            self.setUp()
            calls = self.room / "calls"
            more = device.failing(self.logs, "", 0, 0)
            more |= {"FAULT_TRACE": str(calls), "FAULT_KINDS": ",rename,sync,cut,write,"}
            self.bookie("seal", *words, "--cut-torn", self.logs, "1", more=more)
            made = [it.replace(f"{self.logs}/", "") for it in calls.read_text().splitlines()]
            named, cut = made.index("rename 1.log.torn.new"), made.index("cut 1.log")
            self.assertIn("sync 1.log.torn.new", made[:named])
            self.assertIn(f"sync {self.logs}", made[named:cut], made)
            written = made.index("write 1.log", cut)
            self.assertIn("sync 1.log", made[cut:written], made)

    def test_header_that_names_no_map_is_cleared(self):
        """A crash in a seal: the map, or a part of it, is not there."""
        whole = log_files.sealed_log([TWO])
        at = log_files.HEADER + log_files.FRONT + len(TWO[2])
        for length in (at, len(whole) - 5):
            for words in (["--no-manifest"], []):
                self.setUp()
                (self.logs / "1.log").write_bytes(whole[:length])
                out, errors = self.bookie("seal", *words, "--cut-torn", self.logs, "1")
                copy = f"copy {self.logs}/1.log.torn"
                lines = [f"cut 1 at {at} bytes {length - at} {copy}"] if length > at else []
                lines += [f"cleared 1 map {at} count 1 {copy}", f"sealed 1 map {at} count 1"]
                self.assertEqual((out.splitlines(), errors), (lines, ""))
                self.assertEqual((self.logs / "1.log").read_bytes(), whole)
                self.assertEqual((self.logs / "1.log.torn").read_bytes(), whole[:length])

    def test_link_in_the_place_of_a_copy_stays(self):
        (self.room / "other").write_bytes(self.torn)
        (self.logs / "1.log.torn").symlink_to(self.room / "other")
        _, errors = self.bookie("seal", "--cut-torn", self.logs, "1", status=1)
        self.assertIn("copy exists", errors)
        self.assertEqual((self.logs / "1.log").read_bytes(), self.torn)

    def test_log_that_cannot_be_opened_is_status_1(self):
        log_files.write(self.logs, {0: [ONE], 2: [THREE]})
        (self.logs / "1.log").unlink()
        (self.logs / "1.log").symlink_to("none")
        _, errors = self.bookie("seal", "--no-manifest", "--all-unsealed", self.logs, status=1)
        self.assertIn("fault log 1: disk: ", errors)
