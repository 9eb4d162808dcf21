"""Describes the extension, which is compiled from the C header. pyproject.toml has the rest.

From 3.11 on, the stable ABI of CPython has buffers, so a single wheel serves all later versions. Each earlier version
and each free-threaded build needs its own wheel."""

import sys
import sysconfig

from setuptools import Extension, setup

STABLE = sys.version_info >= (3, 11) and not sysconfig.get_config_var("Py_GIL_DISABLED")

setup(
    ext_modules=[Extension(
        "rapidhash._extension",
        ["arguments.c", "arrow.c", "columns.c", "each_key.c", "extension.c", "hasher.c", "keys.c", "layout.c",
         "shards.c", "slices.c", "source.c", "stream.c"],
        include_dirs=["."],
        define_macros=[("Py_LIMITED_API", "0x030b0000")] if STABLE else [],
        py_limited_api=STABLE,
    )],
    options={"bdist_wheel": {"py_limited_api": "cp311"}} if STABLE else {},
)
