"""Command lines that are wrong end with status 2 and change nothing; what is told of a fault."""

import json
import re
import subprocess

import kit
import log_files

ENTRIES = [(1, 0, b"one"), (2, 0, b"two")]


class Words(kit.Case):
    def setUp(self):
        super().setUp()
        log_files.write(self.logs, {0: ENTRIES})
        self.before = self.files()

    def test_wrong_words_are_status_2(self):
        for words in (
            ["compact", "--dead", "1", "--dead", "x", self.logs],
            ["compact", "--dead", "1", "--dead", str(1 << 63), self.logs],
            ["compact", "--below", "1001", self.logs],
            ["script", "--slots", "0"],
            ["script", "--slots", "65537"],
            ["script", "--log-limit", "2047"],
            ["script", "--folder", self.logs, "x"],
            ["compact", "--minor", "--major", self.logs],
            ["compact", "--minor", "--below", "5", self.logs],
            ["manifest", "--check", "--rebuild", self.logs],
            ["check", "--quick", "--long", self.logs],
            ["check", "--digest", "md5", self.logs],
            ["seal", self.logs],
            ["seal", "--all-unsealed", self.logs, "0"],
            ["import", self.logs],
            ["entries", self.logs],
            ["scan", "--from", "x", self.logs, "0"],
            ["nothing", self.logs],
        ):
            out, errors = self.bookie(*words, status=2)
            self.assertEqual((out, self.files()), ("", self.before))
            self.assertIn("error:", errors)

    def test_seal_without_a_log_names_both_ways(self):
        self.assertIn("give <LOG> or --all-unsealed", self.bookie("seal", self.logs, status=2)[1])

    def test_near_option_is_named(self):
        for word, name in (("--no-hint", "--no-hints"), ("--log-limt", "--log-limit")):
            _, errors = self.bookie("script", word, "5", status=2)
            self.assertIn(f"there is '{name}'", errors)

    def test_json_before_the_command(self):
        for words in (["--json", "check", self.logs], ["check", "--json", self.logs]):
            self.assertEqual(json.loads(self.bookie(*words)[0])["health"], "ok")

    def test_word_that_is_no_text(self):
        words = [bytes(kit.Programs.shell), b"check", bytes(self.logs) + b"\xff"]
        ran = subprocess.run(words, capture_output=True, timeout=kit.LIMIT)
        self.assertEqual((ran.returncode, ran.stdout), (2, b""))
        self.assertIn(b"error: a word of the command line is not UTF-8", ran.stderr)

    def test_each_file_of_ledgers_is_read(self):
        for name in ("one", "two"):
            (self.room / name).write_text({"one": "1\n", "two": "2\r\n"}[name])
        files = ["--dead-file", self.room / "one", "--dead-file", self.room / "two"]
        for form in ([], ["--json"]):
            _, errors = self.bookie(*form, "compact", *files, self.logs, status=1)
            self.assertIn("carriage return", errors)
            if form:
                found = json.loads(errors)
                self.assertEqual((found["fault"], found["line"]), ("bad line", 1))
                self.assertEqual(found["file"], str(self.room / "two"))
        self.assertEqual(self.files(), self.before)

    def test_help_of_a_fault(self):
        (self.room / "none").write_text("")
        words = ["compact", "--live-file", self.room / "none", self.logs]
        _, errors = self.bookie(*words, status=1)
        self.assertEqual(errors.splitlines()[0], "fault no live ledger is named")
        self.assertTrue(errors.splitlines()[1].startswith("help: --live-none "))
        found = json.loads(self.bookie("--json", *words, status=1)[1])
        self.assertTrue(found["help"].startswith("--live-none "))


class Meant(kit.Case):
    """What is told of a word that is none, so that the right one is found."""

    def told(self, *words):
        out, errors = self.bookie(*words, status=2)
        self.assertEqual(out, "")
        return errors.splitlines()

    def test_near_command_is_named(self):
        for word, name in (
            ("chek", "check"),
            ("lods", "logs"),
            ("scrpt", "script"),
            ("laod", "load"),
        ):
            lines = self.told(word, self.logs)
            self.assertEqual(lines[0], f"error: unrecognized command '{word}'; there is '{name}'")

    def test_far_word_lists_the_commands(self):
        for word in ("chks", "nothing"):
            lines = self.told(word, self.logs)
            self.assertEqual(lines[0], f"error: unrecognized subcommand '{word}'")
            listed = [it.split()[0] for it in lines if it.startswith("  ")]
            self.assertLessEqual({"check", "seal", "script", "load"}, set(listed))

    def test_commands_are_listed_in_columns(self):
        out, errors = self.bookie("--help")
        self.assertEqual((out.splitlines()[0], errors), ("Entry log storage of a bookie", ""))
        rows = re.findall(r"^  (\w+ DIR.*?|\w+)(  +)([A-Z].*)$", out, re.M)
        self.assertGreater(len(rows), 17)
        self.assertEqual({len(usage) + len(space) for usage, space, _ in rows}, {38})

    def test_usage_has_each_operand(self):
        for words, usage in (
            (["map", self.logs, "x"], "map [OPTIONS] <DIR> <LOG>"),
            (["entries", self.logs, "1", "x"], "entries [OPTIONS] <DIR> <LEDGER> [FIRST] [LAST]"),
            (["seal", self.logs], "seal [OPTIONS] <DIR> [LOG]"),
        ):
            self.assertIn(f"Usage: bookie {usage}", self.told(*words))

    def test_id_of_a_name_without_its_end(self):
        for word, more in (("1f", "; the file 1f.log is log 31"), ("g", ""), ("1F", "")):
            line = f"error: invalid value '{word}' for '<LOG>': not a number from 0 to 2147483647"
            self.assertEqual(self.told("map", self.logs, word)[0], f"{line} in plain digits{more}")

    def test_greatest_values(self):
        last = (1 << 63) - 1
        entries = [(last, 0, b"one"), (last, last - 1, b"two"), (last, last, b"three")]
        log_files.write(self.logs, {(1 << 31) - 1: entries})
        out, _ = self.bookie("entries", self.logs, last)
        self.assertEqual([int(it.split()[0]) for it in out.splitlines()], [it[1] for it in entries])
        out, _ = self.bookie("export", self.logs, last, last)
        self.assertEqual(out, f"{last} {b'three'.hex()}\n")
        for word in ((1 << 31) - 1, "7fffffff.log"):
            out, _ = self.bookie("map", self.logs, word)
            self.assertEqual(out, f"{last} {sum(log_files.sizes_of(entries).values())}\n")
        for words in (["map", self.logs, 1 << 31], ["entries", self.logs, last + 1]):
            self.assertIn(f"invalid value '{words[-1]}'", self.told(*words)[0])

    def test_choices_are_named(self):
        line = "error: invalid value 'md5' for '--digest <KIND>': not crc32c, crc32 or auto"
        self.assertEqual(self.told("check", "--digest", "md5", self.logs)[0], line)

    def test_second_value_is_named(self):
        lines = self.told("compact", "--dead", "1", "--dead", "x", self.logs)
        self.assertIn("error: invalid value 'x' for '<LEDGER>'", lines[0])

    def test_near_option_of_a_directory(self):
        for word, name in (
            ("--no-manifst", "no-manifest"),
            ("--foldr", "folder"),
            ("--slot", "slots"),
        ):
            self.assertIn(f"there is '--{name}'", self.told("script", word)[0])
        self.assertEqual(
            self.told("script", "--nothing")[0], "error: unexpected argument '--nothing' found"
        )

    def test_version(self):
        first = self.bookie("--version")[0].splitlines()[0]
        self.assertRegex(first, r"^bookie \d+\.\d+\.\d+$")
        self.assertEqual(self.bookie("-V")[0].splitlines()[0], first)
