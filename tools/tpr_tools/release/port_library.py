"""The files of the library for C and C++ in a release, and their places."""
from __future__ import annotations

# The places below the folder of the library, which `embedding/build` makes.
LIBRARY = "lib/libtp_port.a"
PKG_CONFIG = "lib/pkgconfig/tp_port.pc"
# The headers, each with its file of the repository.
HEADERS = {"include/tp_port.h": "embedding/tp_port.h", "include/tp_port.hpp": "embedding/tp_port.hpp"}
# The same for the programs that docs/EMBEDDING.md shows.
EXAMPLES = {"examples/soup.c": "embedding/soup.c", "examples/soup.cpp": "embedding/soup.cpp"}

_PKG_CONFIG = """\
prefix={prefix}
includedir=${{prefix}}/include
libdir={libdir}

Name: tp_port
Description: the queue of one TTCN-3 message port, proved
Version: {version}
Cflags: -I${{includedir}}
Libs: -L${{libdir}} -ltp_port
"""


def below_its_folder(version: str) -> str:
    """The file for pkg-config, for a library that may be moved: all paths are relative to this file."""
    return _PKG_CONFIG.format(prefix="${pcfiledir}/../..", libdir="${prefix}/lib", version=version)


def below_usr(version: str, libraries: str) -> str:
    """The file for pkg-config in a Debian package, with the libraries in this folder."""
    return _PKG_CONFIG.format(prefix="/usr", libdir=f"/{libraries}", version=version)
