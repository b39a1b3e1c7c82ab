"""Tests the files of an installation and of an archive, and the completion."""

import re

import commands
from installed import TOP, Case, Given, build, needs, run

STAND_IN = '#!/bin/sh\necho stand-in "$@"\n'


class Files(Case):
    def check(self, folder, name="share/bookie/SHA256SUMS", status=0):
        return run(["sha256sum", "--check", "--quiet", name], status, folder)

    def test_sums(self):
        """The list has each file, with its digest."""
        copy = self.copy()
        listed = {
            it.partition("  ")[2]
            for it in (copy / "share/bookie/SHA256SUMS").read_text().splitlines()
        }
        there = {str(it.relative_to(copy)) for it in copy.rglob("*") if not it.is_dir()}
        self.assertEqual(there - listed, {"share/bookie/SHA256SUMS"})
        self.assertEqual(listed - there, set())
        self.check(copy)
        with open(copy / "bin" / "bookie", "a") as file:
            file.write("\n")
        self.assertIn("bin/bookie: FAILED", self.check(copy, status=1)[0])

    def test_no_path_of_the_repository(self):
        """No text names the repository, and the unit of systemd names the prefix."""
        for it in Given.prefix.rglob("*"):
            if it.is_file() and it.parent.name != "bookie" or it.name == "bookie":
                data = it.read_bytes() if it.is_file() else b""
                self.assertNotIn(str(TOP).encode(), data, it)
        unit = (Given.prefix / "lib/systemd/system/bookie@.service").read_text()
        self.assertIn(f"\nExecStart={Given.prefix}/bin/bookie daemon ", unit)

    def test_versions(self):
        """All packages have the version of the programs."""
        version = commands.version()[0].split()[1]
        places = {"share/bookie/python/pyproject.toml": 'version = "{}"'}
        places |= {
            "share/bookie/rust/Cargo.toml": 'version = "{}"',
            "lib/pkgconfig/bookie.pc": "Version: {}",
        }
        places["share/bookie/java/pom.xml"] = "  <version>{}</version>"
        for place, line in places.items():
            self.assertIn(
                line.format(version), (Given.prefix / place).read_text().splitlines(), place
            )

    def test_upgrade(self):
        """An upgrade replaces files at once, removes what it has no more, and keeps what others put
        there."""
        copy = self.copy()
        names = {it: self.write(f"copy/share/bookie/{it}", "x") for it in ("earlier", "foreign")}
        with open(copy / "share/bookie/SHA256SUMS", "a") as file:
            file.write(f"{'0' * 64}  share/bookie/earlier\n")
        (copy / "bin" / "bookie").write_text("an earlier version\n")
        with open(copy / "bin" / "bookie") as before:
            build(*Given.words, "--install", copy)
            self.assertEqual(before.read(), "an earlier version\n")
        self.check(copy)
        self.assertEqual([it.exists() for it in names.values()], [False, True])

    def test_removal(self):
        """The line of the page removes the installation, and nothing else."""
        copy = self.copy()
        self.write("copy/share/foreign", "x")
        for page in ("docs/install.md", "tools/install/README.md"):
            lines = re.findall(r"^    # (cut .*)$", (TOP / page).read_text(), re.M)
            self.assertEqual(len(lines), 1)
        run(["bash", "-c", lines[0]], cwd=copy)
        self.assertEqual([it.name for it in copy.rglob("*") if not it.is_dir()], ["foreign"])

    def test_refusals(self):
        """Wrong words end with status 2, and nothing is installed in the repository."""
        for words in (
            ["--jobs", "0"],
            ["--program", "bk_shell=/dev/null", "--install", "x"],
            ["--unproved"],
            ["x"],
        ):
            build(*words, status=2)
        _, errors = build(*Given.words, "--install", TOP / "out" / "x", status=1)
        self.assertIn("it is in the repository", errors)

    def test_archive(self):
        """An archive has its SHA-256 beside it, is the same each time, and runs where it is
        unpacked."""
        first, second = self.room / "first", self.room / "second"
        stands = self.write("stands", STAND_IN)
        stands.chmod(0o755)
        words = [
            it
            for name in ("bk_shell", "bk_serve", "bk_simulate")
            for it in ("--program", f"{name}={stands}")
        ]
        for folder in (first, second):
            build(*words, "--archive", folder)
        name = next(first.glob("*.tar.gz")).name
        self.assertEqual((first / name).read_bytes(), (second / name).read_bytes())
        self.check(first, f"{name}.sha256")
        with open(second / name, "ab") as file:
            file.write(b"x")
        self.check(second, f"{name}.sha256", status=1)
        run(["tar", "-xzf", first / name], cwd=self.room)
        root = self.room / name.removesuffix(".tar.gz")
        self.check(root)
        out, _ = run([root / "bin" / "bookie", "check", "x"], hidden=True)
        self.assertEqual(out, "stand-in check x\n")
        unit = (root / "lib/systemd/system/bookie@.service").read_text()
        self.assertIn("\nExecStart=/usr/local/bin/bookie daemon ", unit)


class Completion(Case):
    BASH = "share/bash-completion/completions/bookie"
    ZSH = "share/zsh/site-functions/_bookie"
    FISH = "share/fish/vendor_completions.d/bookie.fish"

    def test_words(self):
        """Each script has each command, each option and each value of a choice."""
        for place, dashes in ((self.BASH, "--"), (self.ZSH, "--"), (self.FISH, "-l ")):
            text = (Given.prefix / place).read_text()
            for command in commands.commands():
                self.assertRegex(text, rf"\b{command.name}\b")
                for option in command.options:
                    self.assertRegex(text, rf"{dashes}{option.name}\b", place)
                    for value in option.choice:
                        self.assertIn(value, text, place)

    def completed(self, *words):
        script = f'. "{Given.prefix / self.BASH}"; compopt() {{ :; }}; COMP_WORDS=("$@"); COMP_CWORD=$(($# - 1))'
        return run(
            ["bash", "-c", f'{script}; _bookie; printf "%s\\n" "${{COMPREPLY[@]}}"', "bash", *words]
        )[0].split()

    def test_bash(self):
        run(["bash", "-n", Given.prefix / self.BASH])
        self.assertEqual(self.completed("bookie", "che"), ["check"])
        self.assertEqual(self.completed("bookie", "help", "sim"), ["simulate"])
        self.assertEqual(self.completed("bookie", "check", "--d"), ["--digest"])
        self.assertEqual(
            self.completed("bookie", "--json", "check", "--digest", "crc"), ["crc32c", "crc32"]
        )
        self.assertEqual(self.completed("bookie", "check", "DI"), [])
        self.assertIn("--compact", self.completed("bookie", "serve", "logs", "--"))

    @needs("zsh")
    def test_zsh(self):
        run(["zsh", "-n", Given.prefix / self.ZSH])
        folder = (Given.prefix / self.ZSH).parent
        script = (
            f"fpath=({folder} $fpath); autoload -Uz compinit; compinit -u -d {self.room}/dump; "
            "print $_comps[bookie]"
        )
        self.assertEqual(run(["zsh", "-f", "-c", script])[0], "_bookie\n")

    @needs("fish")
    def test_fish(self):
        run(["fish", "--no-execute", Given.prefix / self.FISH])

        def completed(line):
            script = f"source {Given.prefix / self.FISH}; complete -C '{line}'"
            return [
                it.partition("\t")[0]
                for it in run(["fish", "--no-config", "-c", script])[0].splitlines()
            ]

        self.assertEqual(completed("bookie che"), ["check"])
        self.assertIn("--digest", completed("bookie check --d"))
        self.assertEqual(sorted(completed("bookie check --digest cr")), ["crc32", "crc32c"])
