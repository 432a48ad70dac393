"""Scripts of the project as modules of Python, for tests that ask too often to start a process each time."""
import os
import types

ROOT = os.path.realpath(os.path.join(os.path.dirname(__file__), ".."))


def text(*path):
    with open(os.path.join(ROOT, *path), encoding="utf-8") as file:
        return file.read()


def module(*path):
    """A script by its path from the root; nothing compiled is left beside it."""
    made = types.ModuleType(path[-1])
    made.__file__ = os.path.join(ROOT, *path)
    exec(compile(text(*path), made.__file__, "exec"), made.__dict__)
    return made
