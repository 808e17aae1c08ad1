"""The examples in the package's documentation."""
import doctest
import importlib
import pkgutil
import unittest

import rachdoum


def load_tests(loader, tests, pattern):
    names = ["rachdoum"] + [f"rachdoum.{m.name}" for m in pkgutil.iter_modules(rachdoum.__path__) if m.name != "__main__"]
    for name in names:
        tests.addTests(doctest.DocTestSuite(importlib.import_module(name)))
    return tests


if __name__ == "__main__":
    unittest.main()
