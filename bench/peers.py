"""Builds the plain Rust peer."""

import shutil
import subprocess


def built_peer(folder, sources):
    """Builds it in a copy, since its own folder may be one that may not be written, and answers where the program is."""
    copy = f"{folder}/peer"
    shutil.copytree(sources, copy, ignore=shutil.ignore_patterns("target"))
    subprocess.run(["chmod", "-R", "u+w", copy], check=True)
    subprocess.run(["cargo", "build", "--release", "--offline", "--quiet"], cwd=copy, check=True)
    return f"{copy}/target/release/peer"
