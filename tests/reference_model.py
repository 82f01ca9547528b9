"""Loads the model from which the answers of stored cases come, at the stage that this repository has come to.

The model is a slow Python model of the rules, with the package etm_model. It is no part of this repository, and so tests/run runs
none of the scripts that make cases. It has stages before this one and behind it, which the constants here tell for all of them.
"""
import importlib
import sys

PROFILE = "final"  # units tell an exception at its target; each stream may have settings of its own
REACH = 20  # the commands go up to `times`
PARTS = ("base", "frames", "image", "packets", "path", "randoms", "runs", "text", "top", "unit")


def loaded(folder):
    """The model of a folder."""
    sys.path.insert(0, folder)
    for part in PARTS:
        importlib.import_module(f"etm_model.{part}")
    return sys.modules["etm_model"]


def answered(model, words, image, given):
    """The status of a command over the bytes of an image and of an input, and the bytes that are printed."""
    sink = model.top.MemSink()
    status = model.top.run(words, model.top.MemSource(image), model.top.MemSource(given), sink, PROFILE, REACH)
    return model.top.STATUS[status], bytes(sink.got)


def answer(model, words, image, given):
    """The status and the lines of a command over the lines of an image and an input."""
    status, printed = answered(model, words, "".join(line + "\n" for line in image).encode(), given)
    return status, printed.decode().splitlines()
