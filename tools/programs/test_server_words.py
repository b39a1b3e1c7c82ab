"""The server's command line: which words are refused, and that each option does what it says."""

import subprocess

import kit
import log_files

# Words beside the directory that no server takes.
REFUSED = [
    ["--compact", "101,80"],
    ["--compact", "20,101"],
    ["--compact", "20"],
    ["--compact", "20,"],
    ["--compact", ",80"],
    ["--compact", "20,80,90"],
    ["--compact", "-1,80"],
    ["--compact", "+20,80"],
    ["--compact"],
    ["--log-limit", "2047"],
    ["--log-limit", "4000000001"],
    ["--log-limit", "18446744073709553664"],
    ["--log-limit", "0x800"],
    ["--log-limit", "+4096"],
    ["--log-limit"],
    ["--readers", "0"],
    ["--readers", "9"],
    ["--readers", "two"],
    ["--readers", "+2"],
    ["--readers"],
    ["--hints"],
    ["-x"],
    ["--version"],
    ["other"],
    [""],
]
ACCEPTED = [
    ["--compact", "0,0"],
    ["--compact", "100,100"],
    ["--log-limit", "2048"],
    ["--log-limit", "4000000000"],
    ["--readers", "1"],
    ["--readers", "8"],
    ["--no-hints", "--no-hints"],
]


class Words(kit.Case):
    def call_server(self, *words):
        how = {"stdin": subprocess.DEVNULL, "stdout": subprocess.PIPE, "stderr": subprocess.PIPE}
        return subprocess.run([str(kit.Programs.serve), *map(str, words)], timeout=kit.LIMIT, cwd=self.room, **how)

    def test_refused(self):
        for words in ([], [""], *([self.logs, *it] for it in REFUSED), *([*it, self.logs] for it in REFUSED)):
            with self.subTest(words=words):
                ran = self.call_server(*words)
                self.assertEqual((ran.returncode, ran.stdout), (2, b""))
                self.assertTrue(ran.stderr.startswith(b"error: wrong command line\n"), ran.stderr)
        self.assertEqual(list(self.room.iterdir()), [])

    def test_accepted(self):
        for words in (*([self.logs, *it] for it in ACCEPTED), *([*it, self.logs] for it in ACCEPTED)):
            with self.subTest(words=words):
                ran = self.call_server(*words)
                self.assertEqual((ran.returncode, ran.stdout, ran.stderr), (1, b"", b""))
        self.assertTrue(self.logs.is_dir())

    def test_help_and_version(self):
        for words in (["-h"], ["--help"]):
            ran = self.call_server(*words)
            self.assertEqual((ran.returncode, ran.stderr), (0, b""))
            self.assertIn(b"\nUsage: bk_serve DIR [OPTIONS]\n", ran.stdout)
        for words in (["-V"], ["--version"]):
            ran = self.call_server(*words)
            self.assertRegex(ran.stdout, rb"\Abk_serve \d+\.\d+\n\Z")
            self.assertEqual((ran.returncode, ran.stderr), (0, b""))

    def sizes(self, *options):
        """Adds ten entries of 500 bytes. Returns how many are in each log."""
        opened = self.serve(*options)
        opened.add(1, *[b"x" * 480] * 10)
        self.assertEqual(opened.call("flush").entries, 10)
        self.close(opened)
        logs = log_files.entry_logs.read_folder(self.logs)
        return [len(found.entries) for _, found in sorted(logs.items())]

    def test_log_limit(self):
        self.assertEqual(self.sizes("--log-limit", 2048), [2] * 5)

    def test_last_of_equal_options(self):
        self.assertEqual(self.sizes("--log-limit", 2048, "--log-limit", 3100), [4, 4, 2])

    def test_no_log_limit(self):
        self.assertEqual(self.sizes(), [10])

    def test_kind_that_is_omitted_has_the_usual_threshold(self):
        for words, minor, major in (("0,50", 200, 500), ("10,0", 100, 800)):
            opened = self.serve("--compact", words)
            self.assertEqual(opened.call("compact", minor=minor, major=major).name, "compacted")
            self.assertEqual(opened.call("compact", minor=0, major=major).name, "compacted")
            self.assertEqual(opened.call("compact", minor=minor, major=0).name, "compacted")
            self.assertEqual(opened.call("compact", minor=major, major=minor).name, "out_of_range")
            self.close(opened)
