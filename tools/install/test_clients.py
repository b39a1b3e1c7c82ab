"""Tests the clients of an installation as packages."""

import os
import shutil
import sys
from pathlib import Path

from installed import TOP, Case, Given, compiled_by, needs, run

PYTHON = """
import sys
from bookie import Bookie
with Bookie([sys.argv[1], sys.argv[2]]) as bookie:
    bookie.add(1, 0, b"hello")
    bookie.flush()
    print(bookie.read(1, 0).decode())
"""
RUST = """
use bookie::{Bookie, Call};

fn main() -> Result<(), bookie::Error> {
    let words: Vec<String> = std::env::args().collect();
    let bookie = Bookie::open(&words[1], &[&words[2]])?;
    println!("{}", bookie.send(Call::Add, &[1, 0], b"hello").wait()?.status.text());
    bookie.close().map(drop)
}
"""
C = """
#include <bookie.h>
#include <stdio.h>

int main(int count, char **words)
{
    (void)count;
    bookie *b;
    char *command[] = {words[1], words[2], NULL};
    if (bookie_open(command, &b) != BOOKIE_WELCOME)
        return 1;
    bookie_reply reply;
    uint64_t id = bookie_send(b, BOOKIE_ADD, (uint64_t[]){1, 0}, "hello", 5);
    printf("%s\\n", bookie_wait(b, id, &reply) == BOOKIE_ACCEPTED ? "accepted" : "refused");
    bookie_reply_free(&reply);
    return bookie_close(b);
}
"""
JAVA = """
import java.nio.ByteBuffer;
import java.util.List;
import org.dabchickrug.bookie.Bookie;

public class Use {
    public static void main(String[] words) throws Exception {
        try (Bookie bookie = Bookie.open(List.of(words[0], words[1]))) {
            System.out.println(bookie.add(1, 0, ByteBuffer.wrap("hello".getBytes())).number());
        }
    }
}
"""


class Clients(Case):
    def test_python(self):
        """The package is installed into an environment of its own, without a network."""
        venv = self.room / "venv"
        run([sys.executable, "-m", "venv", venv], env={"PATH": os.environ["PATH"]})
        words = ["-m", "pip", "install", "-q", "--no-index", "--disable-pip-version-check"]
        run([venv / "bin" / "python", *words, self.copy("share/bookie/python")], cwd=self.room)
        self.write("use.py", PYTHON)
        self.assertEqual(self.used(venv / "bin" / "python", "-I", self.room / "use.py"), "hello\n")
        run([venv / "bin" / "python", "-m", "pip", "uninstall", "-q", "-y", "bookie"])
        run([venv / "bin" / "python", "-c", "import bookie"], status=1)

    @needs("cargo")
    def test_rust(self):
        """A program depends on the package by its path."""
        self.copy("share/bookie/rust")
        dependence = '[dependencies]\nbookie = { path = "../copy" }\n'
        self.write(
            "use/Cargo.toml",
            f'[package]\nname = "use-bookie"\nversion = "1.0.0"\nedition = "2021"\n\n{dependence}',
        )
        self.write("use/src/main.rs", RUST)
        env = {"PATH": os.environ["PATH"], "HOME": os.environ["HOME"]}
        run(["cargo", "build", "--offline", "-q"], cwd=self.room / "use", env=env)
        self.assertEqual(
            self.used(self.room / "use" / "target" / "debug" / "use-bookie"), "accepted\n"
        )

    @needs("gcc", "pkg-config")
    def test_c(self):
        """A program is compiled by what pkg-config says, also after the tree was moved."""
        copy, source = self.copy(), self.write("use.c", C)
        env = {"PKG_CONFIG_PATH": str(copy / "lib" / "pkgconfig")}
        flags = run(["pkg-config", "--cflags", "--libs", "bookie"], env=env)[0].split()
        run(["gcc", "-Wall", "-Werror", "-o", self.room / "use", source, *flags])
        self.assertEqual(self.used(self.room / "use"), "accepted\n")
        run(["pkg-config", "--exists", "bookie"], status=1)

    @needs("javac")
    def test_java(self):
        """Maven makes a package if it has its plugins; else javac compiles the files that it
        would."""
        copy, source = self.copy("share/bookie/java"), self.write("Use.java", JAVA)
        env, made = {"PATH": os.environ["PATH"], "HOME": os.environ["HOME"]}, self.room / "made"
        plugins = Path.home() / ".m2" / "repository" / "org" / "apache" / "maven" / "plugins"
        if shutil.which("mvn") and (plugins / "maven-jar-plugin").is_dir():
            run(["mvn", "-o", "-q", "package"], cwd=copy, env=env)
            made = next((copy / "target").glob("bookie-*.jar"))
        else:
            run(["javac", "--release", "17", "-d", made, *compiled_by(copy / "pom.xml")], env=env)
        run(["javac", "-cp", made, "-d", self.room / "use", source], env=env)
        self.assertEqual(self.used("java", "-cp", f"{made}:{self.room / 'use'}", "Use"), "0\n")

    def test_pom(self):
        """In the repository Maven compiles what is installed: no test."""
        folder = TOP / "bindings" / "java"
        names = {it.relative_to(folder) for it in compiled_by(folder / "pom.xml")}
        copy = Given.prefix / "share" / "bookie" / "java"
        self.assertEqual(names, {it.relative_to(copy) for it in copy.rglob("*.java")})
