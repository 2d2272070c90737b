"""The extension that heronditch/_build.py makes, for the type checker."""

from typing import Any

ffi: Any
lib: Any
