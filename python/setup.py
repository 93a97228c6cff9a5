"""The tag of the wheel: it has a library of one platform, and no extension of one Python."""

import os
import re

from setuptools import Distribution, setup

try:
    from setuptools.command.bdist_wheel import bdist_wheel
except ImportError:
    from wheel.bdist_wheel import bdist_wheel

LIBRARY = os.path.join(os.path.dirname(os.path.abspath(__file__)), "bsi", "libbsi.so")
if not os.path.isfile(LIBRARY):
    raise SystemExit("there is no bsi/libbsi.so: `make wheel` in the repository builds it, and the wheel with it")


class WithLibrary(Distribution):
    def has_ext_modules(self):
        return True


class PlatformWheel(bdist_wheel):
    def get_tag(self):
        return "py3", "none", portable(super().get_tag()[2])


def portable(platform):
    """Returns the tag of all systems whose libc has what the library needs: that of the newest symbol."""
    with open(LIBRARY, "rb") as file:
        needed = {(int(major), int(minor)) for major, minor in re.findall(rb"GLIBC_(\d+)\.(\d+)", file.read())}
    major, minor = max(needed, default=(2, 5))
    return platform.replace("linux_", f"manylinux_{major}_{max(minor, 5)}_")


setup(distclass=WithLibrary, cmdclass={"bdist_wheel": PlatformWheel})
