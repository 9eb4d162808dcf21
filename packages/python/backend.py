"""Builds the package by setuptools in a temporary copy of this directory, so that a build leaves nothing behind. In the
repository and in an unpacked archive, the copy also gets the C header and the licences. A source distribution has
them. All users may read the files of a package, whatever the builder's umask is."""

import contextlib
import os
import shutil
import tempfile
from pathlib import Path

HERE = Path(__file__).resolve().parent
# The import of this file has left its bytecode.
shutil.rmtree(HERE / "__pycache__", ignore_errors=True)
SHARED = "packages/c/include/rapidhash_c.h", "LICENSE-MIT", "LICENSE-APACHE", "NOTICE"


@contextlib.contextmanager
def _setuptools_in_a_copy():
    from setuptools import __version__, build_meta

    # An older one would ignore pyproject.toml. pip checks the version only if it builds in isolation.
    if int(__version__.partition(".")[0]) < 61:
        raise SystemExit(f"yervound-rapidhash: building it needs setuptools 61 or later, and this is {__version__}")
    with tempfile.TemporaryDirectory() as room:
        copy = Path(room) / "copy"
        shutil.copytree(HERE, copy, ignore=shutil.ignore_patterns("__pycache__", "build", "dist", "*.egg-info"))
        copy.chmod(0o755)  # The copy of a read-only directory is read-only too.
        for path in map(Path, SHARED):
            if not (HERE / path.name).exists():
                shutil.copy(HERE.parent.parent / path, copy)
        for path in copy.rglob("*"):
            path.chmod(0o755 if path.is_dir() else 0o644)
        before, mask = os.getcwd(), os.umask(0o022)
        os.chdir(copy)
        try:
            yield build_meta
        finally:
            os.chdir(before)
            os.umask(mask)


def build_wheel(wheel_directory, config_settings=None, metadata_directory=None):
    folder = os.path.abspath(wheel_directory)
    with _setuptools_in_a_copy() as backend:
        return backend.build_wheel(folder, config_settings)


def build_sdist(sdist_directory, config_settings=None):
    folder = os.path.abspath(sdist_directory)
    with _setuptools_in_a_copy() as backend:
        return backend.build_sdist(folder, config_settings)
