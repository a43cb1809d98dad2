#!/usr/bin/env python3
"""What the build of the Rust package makes of an archive that is right, stale, damaged, foreign or missing, with the kit at hand
and without. It works in a copy of the repository with the archive that is built here; a script stands in for the kit and lays
that archive, so that nothing is proved again."""

import os
import shutil
import subprocess
import sys
import tempfile
from pathlib import Path

ROOT = Path(__file__).resolve().parent.parent
ARCHIVE, RECORD = "libsleetrick.a", "libsleetrick.from"
tried, failed = [], []


class Copy:
    """A copy of what the package's build reads, and a package elsewhere that depends on it by path."""

    def __init__(self, folder):
        self.root = folder / "sleetrick"
        self.user = folder / "user"
        self.tools = folder / "bin"
        shutil.copytree(ROOT / "rust", self.root / "rust", ignore=shutil.ignore_patterns("target"))
        shutil.copytree(ROOT / "crates", self.root / "crates", ignore=shutil.ignore_patterns("out"))
        for file in ("crates.txt", "KIT", "tools/archive"):
            (self.root / file).parent.mkdir(exist_ok=True)
            shutil.copy(ROOT / file, self.root / file)
        self.lib = self.root / "target/staticlib"
        shutil.copytree(ROOT / "target/staticlib", self.lib)
        (self.user / "src").mkdir(parents=True)
        (self.user / "Cargo.toml").write_text(
            '[package]\nname = "user"\nversion = "0.1.0"\nedition = "2021"\n\n'
            f'[dependencies]\nsleetrick = {{ path = "{self.root}/rust" }}\n'
        )
        (self.user / "src/main.rs").write_text(
            "fn main() {\n"
            "    let call = sleetrick::decode(sleetrick::Layout::Dvr, 1_622_802_432).unwrap();\n"
            '    println!("{}", call.seconds());\n'
            "}\n"
        )
        # the path of a machine without the kit
        self.tools.mkdir()
        for place in os.environ["PATH"].split(":"):
            for tool in Path(place).iterdir() if Path(place).is_dir() else ():
                link = self.tools / tool.name
                if tool.name not in ("rt", "rattle") and not link.is_symlink():
                    link.symlink_to(tool)
        self.kit = folder / "kit"
        self.called = folder / "called"
        self.meanwhile = folder / "meanwhile"

    def with_kit(self):
        """A kit at hand that proves nothing, and whose archiver lays the right archive."""
        stand_in = self.kit / "stand-in"
        stand_in.parent.mkdir()
        stand_in.write_text(
            "#!/bin/sh\n"
            f'echo "$(basename "$0") $*" >>"{self.called}"\n'
            f'if [ "$1" = lib ] && [ -e "{self.meanwhile}" ]; then echo >>src/lib.rt; fi\n'
            f'[ "$1" != rcs ] || cp "{ROOT}/target/staticlib/{ARCHIVE}" "$2"\n'
        )
        stand_in.chmod(0o755)
        for tool in (self.tools / "rt", self.kit / "toolchain/bin/llvm-ar"):
            tool.parent.mkdir(parents=True, exist_ok=True)
            tool.symlink_to(stand_in)

    def build(self, **variables):
        """Builds and runs the package elsewhere: what it printed, or what the build said."""
        self.called.unlink(missing_ok=True)
        inherited = {name: value for name, value in os.environ.items() if name != "SLEETRICK_LIB"}
        environment = {**inherited, "PATH": str(self.tools), "RATTLE_HOME": str(self.kit), **variables}
        words = ["cargo", "run", "--quiet", "--offline"]
        run = subprocess.run(words, cwd=self.user, env=environment, capture_output=True, text=True)
        return run.stdout.strip() if run.returncode == 0 else "REFUSED " + run.stderr

    def built_anew(self):
        return self.called.exists() and "rt lib" in self.called.read_text()


def expect(name, holds, said=""):
    tried.append(name)
    if not holds:
        failed.append(name)
        print(f"archives: {name} FAILED\n{said}")


def refused(name, said, *words):
    expect(name, said.startswith("REFUSED") and all(word in said for word in words), said)


SECONDS = "1709164800"

with tempfile.TemporaryDirectory() as folder:
    copy = Copy(Path(folder))
    source = copy.root / "crates/sleetrick/src/lib.rt"
    text = source.read_text()

    # without the kit
    said = copy.build()
    expect("an archive that is right", said == SECONDS, said)
    source.write_text(text + "// changed\n")
    refused("sources that changed, without the kit", copy.build(), "built from other sources", "no `rt` on the path")
    source.write_text(text)
    said = copy.build()
    expect("sources as they were", said == SECONDS, said)
    (copy.root / "crates/new.antt").write_text("")
    refused("a new source, without the kit", copy.build(), "built from other sources")
    (copy.root / "crates/new.antt").unlink()
    good = (copy.lib / ARCHIVE).read_bytes()
    (copy.lib / ARCHIVE).write_bytes(good[:-1] + bytes([good[-1] ^ 1]))
    refused("an archive with another last byte", copy.build(), "not the archive that its record")
    (copy.lib / ARCHIVE).write_bytes(good)
    record = (copy.lib / RECORD).read_text()
    (copy.lib / RECORD).unlink()
    refused("an archive without a record", copy.build(), "has no record")
    (copy.lib / RECORD).write_text(record.replace("-linux-", "-windows-"))
    refused("an archive for another target", copy.build(), "was built for")
    (copy.lib / RECORD).write_text(record)
    other = Path(folder) / "other"
    shutil.copytree(copy.lib, other)
    shutil.rmtree(copy.lib)
    refused("no archive, without the kit", copy.build(), "no `rt` on the path")
    said = copy.build(SLEETRICK_LIB=str(other))
    expect("an archive in a folder that is named", said == SECONDS, said)
    source.write_text(text + "// changed\n")
    refused("a stale one there", copy.build(SLEETRICK_LIB=str(other)), "built from other sources", "SLEETRICK_LIB names")
    refused("a path that is not absolute", copy.build(SLEETRICK_LIB="other"), "not an absolute path")
    refused("no such folder", copy.build(SLEETRICK_LIB=str(other) + "s"), "there is no folder", "SLEETRICK_LIB names")

    # with the kit: what is stale is built anew, and only that
    copy.with_kit()
    shutil.copytree(other, copy.lib)
    said = copy.build()
    expect("sources that changed, with the kit", said == SECONDS and copy.built_anew(), said)
    said = copy.build()
    expect("nothing changed since", said == SECONDS and not copy.built_anew(), said)
    source.write_text(text)
    said = copy.build()
    expect("sources changed back", said == SECONDS and copy.built_anew(), said)
    (copy.lib / ARCHIVE).write_bytes(b"!<arch>\n")
    said = copy.build()
    expect("a foreign archive, with the kit", said == SECONDS and copy.built_anew(), said)
    source.write_text(text + "// changed\n")
    refused("a stale one in a named folder, with the kit", copy.build(SLEETRICK_LIB=str(other)), "built from other sources")
    expect("nothing is built there", not copy.built_anew())
    copy.meanwhile.write_text("")
    refused("sources that change while they are built", copy.build(), "the sources changed while they were built")
    copy.meanwhile.unlink()
    said = copy.build()
    expect("and are built anew", said == SECONDS and copy.built_anew(), said)

print(f"archives: {len(tried)} tried, {len(failed)} failed")
sys.exit(bool(failed))
