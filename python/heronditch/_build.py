"""Makes the extension `_heronditch` by cffi: it takes the declarations of include/heronditch.h, has the C compiler hold each of
them against that header, and links the proved library into itself.

    python3 python/heronditch/_build.py FOLDER

puts it into a folder. The library is target/staticlib/libheronditch.a, which tools/library makes, or what the environment
variable HERONDITCH_LIBRARY names.
"""

from __future__ import annotations

import hashlib
import os
import re
import sys
from typing import Any

ROOT = os.path.dirname(os.path.dirname(os.path.dirname(os.path.abspath(__file__))))
HEADER = os.path.join(ROOT, "include", "heronditch.h")
MODULE = "_heronditch"


def library() -> str:
    """The path of the proved library."""
    return os.environ.get("HERONDITCH_LIBRARY") or os.path.join(ROOT, "target", "staticlib", "libheronditch.a")


def library_sha256() -> str:
    """The SHA-256 of the proved library, which the extension keeps, so that it can say what it has linked."""
    with open(library(), "rb") as file:
        return hashlib.sha256(file.read()).hexdigest()


def declarations(header: str) -> str:
    """What cffi needs of a header: constants, types and functions, without comments and other lines for the preprocessor. A constant
    that is not a plain number is left for the compiler to work out."""
    header = re.sub(r"/\*.*?\*/", "", header, flags=re.DOTALL).replace("\\\n", " ")
    header = re.sub(r"#ifdef __cplusplus.*?#endif", "", header, flags=re.DOTALL)
    kept = []
    for line in header.splitlines():
        constant = re.match(r"\s*#\s*define\s+(\w+)\s+(\S.*?)\s*$", line)
        if constant:
            name, value = constant.groups()
            kept.append(f"#define {name} {value if value.isdecimal() else '...'}")
        elif not line.lstrip().startswith("#"):
            kept.append(line)
    return "\n".join(kept)


def builder() -> Any:
    """The extension, to be compiled."""
    from cffi import FFI

    with open(HEADER, encoding="utf-8") as file:
        header = file.read()
    ffi = FFI()
    ffi.cdef(declarations(header) + "\nstatic char *const LIBRARY_SHA256;")
    ffi.set_source(
        MODULE,
        f'#include "heronditch.h"\nstatic char *const LIBRARY_SHA256 = "{library_sha256()}";',
        include_dirs=[os.path.dirname(HEADER)],
        extra_objects=[library()],
        py_limited_api=True,
        extra_compile_args=["-O1", "-Werror=incompatible-pointer-types", "-Werror=implicit-function-declaration"],
    )
    return ffi


def main() -> None:
    """Makes the extension in a folder."""
    if len(sys.argv) != 2:
        sys.exit(__doc__)
    builder().compile(tmpdir=sys.argv[1], verbose=False)


if __name__ == "__main__":
    main()
