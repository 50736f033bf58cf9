"""Builds the package: first the library for C, with c/build, and then the extension, which is linked with this library.

In the repository, the sources of the library are in the folders c and rust beside this one. `setup.py sdist` copies them into the source distribution, into
the folder library. So the source distribution can be built without the repository.

The environment variable IXDTF_LIBRARY says which library is built. With `proved`, `rt` builds the proved library. With `plain`, or without the
variable, cargo builds the plain library, which has the same function bodies. Nothing is proved about the plain library. Any other value is the
path of a folder in which c/build left a library, which is used as it is."""
import os
import pathlib
import shutil
import subprocess

import setuptools
from setuptools import Extension, setup
from setuptools.command.build_ext import build_ext
from setuptools.command.sdist import sdist

HERE = pathlib.Path(__file__).resolve().parent
LIBRARY = HERE / 'library' if (HERE / 'library').exists() else HERE.parent
# The files and folders that c/build reads when it builds the plain library. Not each crate has all of them.
SOURCES = ['c/build', 'c/ixdtf.h', 'c/ixdtf_declarations.h', 'c/symbols.txt']
SOURCES += [f'rust/{crate}/{part}' for crate in ('ixdtf', 'ixdtf_print', 'ixdtf_c') for part in ('Cargo.toml', 'LICENSE', 'README.md', 'examples', 'src')]

if int(setuptools.__version__.partition('.')[0]) < 61:
    # Such a version does not read pyproject.toml, and would build a package with the name UNKNOWN and without modules.
    raise SystemExit(f'expected setuptools 61 or later, which reads pyproject.toml, and found setuptools {setuptools.__version__}')


def library_folder(build_folder):
    """Returns a folder with the library: the one that IXDTF_LIBRARY names, or one into which c/build builds the library. Ends the program if it cannot be
    built here."""
    given = os.environ.get('IXDTF_LIBRARY', 'plain')
    if given not in ('plain', 'proved'):
        if not (pathlib.Path(given) / 'libixdtf.a').exists():
            raise SystemExit('expected the environment variable IXDTF_LIBRARY to be plain, proved or the path of a folder with libixdtf.a, '
                             f'and found {given!r}')
        return pathlib.Path(given)
    if given == 'proved' and not (LIBRARY / 'crates').exists():
        raise SystemExit('a source distribution has only the sources of the plain library. The proved library can be built in the repository')
    if given == 'plain' and shutil.which('cargo') is None:
        raise SystemExit('expected cargo on the PATH, which builds the library for C. It is the command of Rust 1.85 or later')
    folder = build_folder / given
    subprocess.run(['bash', str(LIBRARY / 'c' / 'build'), f'--{given}', str(folder)], check=True)
    return folder


class BuildWithLibrary(build_ext):
    """Builds the library for C in the build folder, and links the extension with it."""

    def build_extension(self, ext):
        folder = library_folder(pathlib.Path(self.build_temp).resolve())
        ext.include_dirs = [str(folder)]
        ext.extra_objects = [str(folder / 'libixdtf.a')]
        # Some Pythons are built with -O2. With -O3, compilers use vectors in the loops over many texts.
        ext.extra_compile_args = ['-O3', '-fvisibility=hidden'] if self.compiler.compiler_type == 'unix' else []
        super().build_extension(ext)


class WithLibrary(sdist):
    """Makes the source distribution with the sources of the library."""

    def make_release_tree(self, base_dir, files):
        super().make_release_tree(base_dir, files)
        for name in SOURCES:
            source, target = LIBRARY / name, pathlib.Path(base_dir) / 'library' / name
            target.parent.mkdir(parents=True, exist_ok=True)
            if source.is_dir():
                shutil.copytree(source, target, dirs_exist_ok=True)
            elif source.exists():
                shutil.copy2(source, target)


setup(ext_modules=[Extension('ixdtf._reader', ['src/ixdtf/_reader.c', 'src/ixdtf/_columns.c'], depends=['src/ixdtf/_reader.h'])], cmdclass={'build_ext': BuildWithLibrary, 'sdist': WithLibrary})
