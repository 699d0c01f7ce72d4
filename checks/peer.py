"""The independent program that the checks here compare with.

It is the command that SALSIFY_PEER names, before any word of its own commands, or the Rust sources in ../shared/oracle beside this
repository, which are built once in a folder below the system's temporary files."""
import hashlib
import os
import shlex
import shutil
import subprocess
import sys
import tempfile
from pathlib import Path

ROOT = Path(__file__).resolve().parent.parent
SOURCES = ROOT.parent / "shared" / "oracle"
# The status of a check that is skipped because something is missing here.
SKIPPED = 77


def program():
    """The other program's first words, or None where it isn't at hand."""
    if "SALSIFY_PEER" in os.environ:
        words = shlex.split(os.environ["SALSIFY_PEER"])
        if not words or shutil.which(words[0]) is None:
            sys.exit(f"SALSIFY_PEER names no program: {os.environ['SALSIFY_PEER']!r}")
        return words
    if not (SOURCES / "Cargo.toml").exists() or shutil.which("cargo") is None:
        return None
    # The folder's name changes with the sources, so an old build is never taken for a new one.
    digest = hashlib.sha256()
    for file in [SOURCES / "Cargo.toml", *sorted((SOURCES / "src").rglob("*.rs"))]:
        digest.update(file.read_bytes())
    target = Path(tempfile.gettempdir()) / f"salsify-peer-{os.getuid()}-{digest.hexdigest()[:16]}"
    build = ["cargo", "build", "--release", "--offline", "--quiet", "--manifest-path", str(SOURCES / "Cargo.toml"), "--target-dir", str(target)]
    subprocess.run(build, check=True, timeout=600)
    programs = [p for p in (target / "release").iterdir() if p.is_file() and os.access(p, os.X_OK)]
    return [str(programs[0])]


def missing():
    """Why there is no other program, where there is none."""
    if not (SOURCES / "Cargo.toml").exists():
        return f"no independent program is at hand: SALSIFY_PEER isn't set, and {SOURCES} isn't there"
    return f"cargo isn't here, which builds the independent program in {SOURCES}"
