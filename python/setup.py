"""What pyproject.toml cannot say: the extension that cffi makes, and that one wheel serves every Python from 3.9 on."""

from setuptools import setup

setup(
    cffi_modules=["heronditch/_build.py:builder"],
    options={"bdist_wheel": {"py_limited_api": "cp39"}},
)
