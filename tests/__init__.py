"""The tests of the program, in the standard library's `unittest`; README.md says what is where,
and how to run one.

A module here has tests if it defines a class with some.
At its top it may say two things about them:
- `NEEDS_LIBRARY = True`: they test libdyncollate, which `./build library` makes,
  or what `./build aarch64` makes.
- `RUN_BY = "devices"`: they are not among all tests, because another module runs them, or a person.
"""
import importlib
import os
import pathlib
import unittest


def has_tests(module):
    """Whether a module defines a class with tests of its own."""
    classes = [it for it in vars(module).values() if isinstance(it, type)
               and it.__module__ == module.__name__]
    # (The default loader finds only the tests that -k selects.)
    return any(issubclass(it, unittest.TestCase) and unittest.TestLoader().getTestCaseNames(it)
               for it in classes)


def modules_with_tests():
    """All modules with tests, in the order of their names."""
    names = sorted(it.stem for it in pathlib.Path(__file__).parent.glob("*.py")
                   if it.stem != "__init__")
    return [it for it in (importlib.import_module(f"tests.{name}") for name in names)
            if has_tests(it)]


def load_tests(loader, *_):
    """The tests of all modules. With TESTS=library only the tests of libdyncollate, with
    TESTS=program all others."""
    from tests.side_by_side import SideBySide
    wanted = os.environ.get("TESTS")
    return SideBySide(loader.loadTestsFromModule(it) for it in modules_with_tests()
                      if not hasattr(it, "RUN_BY") if wanted not in ("library", "program")
                      or hasattr(it, "NEEDS_LIBRARY") == (wanted == "library"))
