"""Puts the package of this repository on the path, also for the processes that tests start, and counts warnings as
failures, but for deprecations, which python/tests/run leaves out."""

import os
import sys

TOP = os.path.dirname(os.path.dirname(os.path.abspath(__file__)))
sys.path.insert(0, TOP)
os.environ["PYTHONPATH"] = os.pathsep.join([TOP, *filter(None, [os.environ.get("PYTHONPATH")])])


def pytest_configure(config):
    config.addinivalue_line("filterwarnings", "error")
