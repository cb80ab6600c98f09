"""Builds files of tools over the original crate, the Rust crate `pagable` 0.4.2.

ORIGINAL, which tools that compare with it take, is a cargo workspace that has this crate as a member, with a module
`oracle_access`, whose `set_mode` puts another hash in BLAKE3's place: `Mode::Sha256`, or `Mode::Weigh`, which is
`WeighHash`. It is copied, and nothing of it comes into the repository.
"""
import os
import pathlib
import re
import shutil
import subprocess
import sys

TOOLS = pathlib.Path(__file__).resolve().parent


def copied(original, copy):
    """Copies the workspace into this folder, without what was built there: the path of the crate's manifest."""
    shutil.rmtree(copy, ignore_errors=True)
    shutil.copytree(original, copy, ignore=shutil.ignore_patterns("target"))
    for manifest in sorted(copy.rglob("Cargo.toml")):
        if re.search(r'^name\s*=\s*"pagable"', manifest.read_text(), re.MULTILINE):
            return manifest
    sys.exit("no package `pagable` is there")


def built(manifest, name, target, settings):
    """Builds tools/original_NAME.rs as an example of the crate with this manifest, by cargo with these settings of its
    environment: the program's path."""
    examples = manifest.parent / "examples"
    examples.mkdir(exist_ok=True)
    shutil.copy(TOOLS / f"original_{name}.rs", examples / f"{name}.rs")
    build = ["cargo", "build", "--release", "-p", "pagable", "--example", name, "--target-dir", target]
    subprocess.run(build, check=True, cwd=manifest.parent, env={**os.environ, **settings})
    return target / "release" / "examples" / name
