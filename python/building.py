"""Makes the wheel of the package rbbi, with the C library in it, for `pip install` and `pip wheel`.

The library is the one that RBBI_LIBRARY names; else, in the repository, the one that ../bin/build-c
builds; else, in what bin/install or bin/release made, the one in its folder lib.
"""
import base64
import ctypes
import hashlib
import os
import re
import subprocess
import sysconfig
import zipfile
from pathlib import Path

HERE = Path(__file__).resolve().parent
SUMMARY = 'Text boundaries by break rules: characters, words, sentences, lines'
REQUIRES = '>=3.9'


class UnsupportedOperation(Exception):
    """What isn't made here."""


def library():
    """The shared library that goes into the wheel."""
    named = os.environ.get('RBBI_LIBRARY')
    if named:
        return Path(named)
    build = HERE.parent / 'bin' / 'build-c'
    if build.exists():
        subprocess.run([str(build)], check=True)
        return HERE.parent / 'out' / 'librbbi.so'
    installed = HERE.parents[2] / 'lib' / 'librbbi.so'
    if installed.exists():
        return installed
    raise FileNotFoundError('librbbi.so is not found; set RBBI_LIBRARY to its path')


def version_of(path):
    """The version that a library reports."""
    call = ctypes.CDLL(str(path)).rbbi_version
    call.restype = ctypes.c_char_p
    return call().decode()


def platform_of(path):
    """The platform of a library's wheel. On Linux it names the oldest glibc that the library runs with:
    that of the newest symbols that it asks for (PEP 600)."""
    platform = re.sub('[-.]', '_', sysconfig.get_platform())
    wanted = [int(minor) for minor in re.findall(rb'GLIBC_2\.(\d+)', path.read_bytes())]
    if not platform.startswith('linux_') or not wanted:
        return platform
    return platform.replace('linux_', f'manylinux_2_{max(*wanted, 17)}_', 1)


def build_wheel(wheel_directory, config_settings=None, metadata_directory=None):
    """Writes the wheel, and gives its name."""
    shared = library()
    version = version_of(shared)
    platform = platform_of(shared)
    kept = f'rbbi-{version}.dist-info'
    package = HERE / 'src' / 'rbbi'
    files = {f'rbbi/{path.name}': path.read_bytes()
             for path in sorted([*package.glob('*.py'), package / 'py.typed'])}
    files['rbbi/librbbi.so'] = shared.read_bytes()
    for licence in ('LICENSE', 'unicode/LICENSE-UNICODE'):
        files[f'{kept}/licenses/{licence}'] = (HERE.parent / licence).read_bytes()
    files[f'{kept}/METADATA'] = (
        f'Metadata-Version: 2.1\nName: rbbi\nVersion: {version}\nSummary: {SUMMARY}\n'
        f'License: MIT AND Unicode-3.0\nRequires-Python: {REQUIRES}\n'
        'Description-Content-Type: text/markdown\n\n').encode() + (HERE / 'README.md').read_bytes()
    files[f'{kept}/WHEEL'] = (f'Wheel-Version: 1.0\nGenerator: rbbi\nRoot-Is-Purelib: false\n'
                              f'Tag: py3-none-{platform}\n').encode()
    record = ''
    for name, data in files.items():
        digest = base64.urlsafe_b64encode(hashlib.sha256(data).digest()).rstrip(b'=').decode()
        record += f'{name},sha256={digest},{len(data)}\n'
    files[f'{kept}/RECORD'] = f'{record}{kept}/RECORD,,\n'.encode()
    wheel = f'rbbi-{version}-py3-none-{platform}.whl'
    with zipfile.ZipFile(Path(wheel_directory) / wheel, 'w', zipfile.ZIP_DEFLATED) as archive:
        for name, data in files.items():
            archive.writestr(zipfile.ZipInfo(name), data, zipfile.ZIP_DEFLATED)
    return wheel


def build_sdist(sdist_directory, config_settings=None):
    """Refused: the library is built in the repository, and a wheel has it."""
    raise UnsupportedOperation('there is no source distribution; pip wheel makes a wheel')
