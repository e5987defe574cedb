"""Packs chanhub.py with the built library. pyproject.toml has all that is not said here.

In the sources chanhub is one module, which finds the library in ../out. Installed, it is a package: the module as __init__.py, and
beside it the library, py.typed and, where a C compiler and Python's headers are there to build it, chanhub_calls.c.
"""
import os
import shutil

from setuptools import Distribution, Extension, setup
from setuptools.command.build_py import build_py

try:
    from setuptools.command.bdist_wheel import bdist_wheel
except ImportError:  # setuptools before 70.1, with the package wheel
    from wheel.bdist_wheel import bdist_wheel


HERE = os.path.dirname(os.path.abspath(__file__))
# Without it the module makes all calls by ctypes.
CALLS = Extension('chanhub.chanhub_calls', ['chanhub_calls.c'], include_dirs=[os.path.join(HERE, os.pardir)],
                  extra_compile_args=['-std=c11'], py_limited_api=True, optional=True)


def built_library():
    """The file of the library: the one that CHANHUB_LIBRARY names, or the one that make builds."""
    built = os.path.join(HERE, '..', 'out', 'libchanhub.so')
    path = os.path.abspath(os.environ.get('CHANHUB_LIBRARY') or built)
    if not os.path.isfile(path):
        raise SystemExit('There is no %s.\nEither build it, by `make -C capi` at the top of chanhub\'s repository,\n'
                         'or have CHANHUB_LIBRARY name the file by its full path.' % path)
    return path


class BuildPackage(build_py):
    def get_module_outfile(self, build_dir, package, module):
        return os.path.join(build_dir, module, '__init__.py')

    def run(self):
        super().run()
        # An editable install uses the module where it is, and the library that it finds there.
        if getattr(self, 'editable_mode', False):
            return
        folder = os.path.join(self.build_lib, 'chanhub')
        shutil.copyfile(built_library(), os.path.join(folder, 'libchanhub.so'))
        with open(os.path.join(folder, 'py.typed'), 'w'):
            pass


class BuildWheel(bdist_wheel):
    def get_tag(self):
        """Any Python 3, since ctypes loads the library, but only this platform."""
        return 'py3', 'none', super().get_tag()[2]


class OfOnePlatform(Distribution):
    def has_ext_modules(self):
        return True


setup(ext_modules=[CALLS], distclass=OfOnePlatform, cmdclass={'build_py': BuildPackage, 'bdist_wheel': BuildWheel})
