"""The examples, with the reports and last pictures that stand beside them, which were worked out by hand."""
import os
import re

FOLDER = os.path.join(os.path.dirname(os.path.abspath(__file__)), "..", "examples")
# Those that end with status 0, each with the size of its last picture.
SIZES = {
    "shell": "40x8",
    "editor": "30x6",
    "mouse": "20x4",
    "ctrl_c": "20x3",
    "group": "20x3",
    "cells": "8x3",
    "refusals": "20x3",
    "closing": "20x3",
    "version1": "20x3",
}
NAMES = tuple(SIZES)


def path(name, kind):
    return os.path.join(FOLDER, f"{name}.{kind}")


def report_of(name):
    """The lines of the report of an example, with the length 0 after each Paint."""
    with open(path(name, "report"), encoding="utf-8") as lines:
        return lines.read().replace('["painted",N]', '["painted",0]').splitlines()


def dump_of(name):
    with open(path(name, "dump"), encoding="utf-8") as text:
        return text.read()


def without_lengths(report):
    """The lines of a report, with the length 0 after each Paint."""
    return [re.sub(r'\["painted",\d+\]', '["painted",0]', line) for line in report.decode().splitlines()]
