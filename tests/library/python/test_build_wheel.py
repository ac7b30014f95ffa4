"""Tests how bindings/python/build_wheel.py compiles the C, tags wheels, and packs them. CC is the compiler, or else cc."""
import ctypes
import os
import pathlib
import shlex
import shutil
import struct
import subprocess
import sys
import tempfile
import unittest
import zipfile
from unittest import mock

TOP = pathlib.Path(__file__).resolve().parents[3]
sys.path.insert(0, str(TOP / 'bindings/python'))
import build_wheel  # noqa: E402
import platform_tags  # noqa: E402

SOURCE = """
#ifdef __OPTIMIZE__
int is_optimised = 1;
#else
int is_optimised = 0;
#endif
#ifdef CAPNP_CANONICAL_TRAPS
int has_traps = 1;
#else
int has_traps = 0;
#endif
"""
# Writes each command to a file, refuses the flags of REFUSED, and runs the compiler for the others.
COMPILER = """#!/bin/sh
printf '%s\\n' "$*" >>"$COMMANDS"
for it; do case " $REFUSED " in *" $it "*) echo "unknown argument: $it" >&2; exit 1; esac; done
exec {compiler} "$@"
"""


class Compiling(unittest.TestCase):
    def compiled(self, cflags='', refused=''):
        """What the C was compiled with: whether it is optimised, whether it has traps, and the command."""
        with tempfile.TemporaryDirectory() as name:
            folder = pathlib.Path(name)
            source, compiler, commands, library = (folder / it for it in ('source.c', 'compiler', 'commands', 'library.so'))
            source.write_text(SOURCE)
            compiler.write_text(COMPILER.format(compiler=os.environ.get('CC', 'cc')))
            compiler.chmod(0o755)
            given = {'CC': shlex.quote(str(compiler)), 'CFLAGS': cflags, 'COMMANDS': str(commands), 'REFUSED': refused}
            with mock.patch.dict(os.environ, given):
                library.write_bytes(build_wheel.compiled(source, source))
            loaded = ctypes.CDLL(str(library))
            facts = [bool(ctypes.c_int.in_dll(loaded, it).value) for it in ('is_optimised', 'has_traps')]
            return (*facts, commands.read_text().splitlines()[-1].split())

    def test_optimised_with_any_flags(self):
        for cflags in '', '-O0', '-g -O0', '-Og', '-O3':
            is_optimised, _, command = self.compiled(cflags)
            self.assertTrue(is_optimised, cflags)
            self.assertEqual([it for it in command if it.startswith('-O')][-1], '-O2', cflags)

    def test_protected_stack(self):
        flag = '-fstack-clash-protection'
        self.assertIn(flag, self.compiled()[2])
        # a compiler that doesn't know it
        is_optimised, has_traps, command = self.compiled(refused=flag)
        self.assertEqual((is_optimised, has_traps, flag in command), (True, True, False))

    def test_traps(self):
        self.assertTrue(self.compiled()[1])
        self.assertFalse(self.compiled('-UCAPNP_CANONICAL_TRAPS')[1])


def macho(*machines):
    """The front of a library for macOS for these processors."""
    if len(machines) == 1:
        return struct.pack('<II', 0xfeedfacf, machines[0])
    return struct.pack('>II', 0xcafebabe, len(machines)) + b''.join(struct.pack('>5I', it, 0, 0, 0, 0) for it in machines)


class Tags(unittest.TestCase):
    """The tags of a wheel come from the library in it."""

    INTEL, ARM = 0x01000007, 0x0100000c

    def linked(self, source, *flags):
        with tempfile.TemporaryDirectory() as folder:
            library, file = pathlib.Path(folder) / 'library.so', pathlib.Path(folder) / 'source.c'
            file.write_text(source)
            compiler = shlex.split(os.environ.get('CC', 'cc'))
            subprocess.run([*compiler, '-shared', '-fPIC', '-o', str(library), str(file), *(it.replace('FOLDER', folder) for it in flags)], check=True)
            return library.read_bytes()

    @unittest.skipUnless(sys.platform == 'linux' and os.uname().machine == 'x86_64', 'no Linux on x86-64')
    def test_linux(self):
        plain = self.linked('int nothing;')
        self.assertEqual(platform_tags.of(plain), ['manylinux_2_5_x86_64', 'manylinux1_x86_64'])
        # memcpy of a later glibc, and a function that came with one
        copies = self.linked('#include <string.h>\nvoid copy(void *to, void *from, size_t size) { memcpy(to, from, size); }')
        self.assertEqual(platform_tags.of(copies), ['manylinux_2_17_x86_64', 'manylinux2014_x86_64'])
        later = self.linked('#define _GNU_SOURCE\n#include <unistd.h>\nint id(void) { return gettid(); }')
        self.assertEqual(platform_tags.of(later), ['manylinux_2_30_x86_64'])
        # a library of another folder, which a wheel can't count on
        more = self.linked('extern int zlibVersion(void); int more(void) { return zlibVersion(); }', '-nostdlib', '-Wl,--no-as-needed', '-l:libz.so.1')
        self.assertEqual(platform_tags.of(more), ['linux_x86_64'])
        for library, wanted in (copies, 'manylinux_2_5_x86_64'), (copies, 'manylinux2010_x86_64'), (plain, 'manylinux2014_aarch64'), (more, 'manylinux_2_34_x86_64'):
            with self.assertRaises(SystemExit):
                platform_tags.of(library, wanted)
        for library, wanted in (plain, 'manylinux_2_17_x86_64'), (copies, 'manylinux2014_x86_64'), (more, 'linux_x86_64'):
            self.assertEqual(platform_tags.of(library, wanted), [wanted])

    def test_macos(self):
        for system, machines, wanted in (
            ('macosx-10.9-universal2', [self.ARM], 'macosx_11_0_arm64'), ('macosx-10.9-universal2', [self.INTEL], 'macosx_10_9_x86_64'),
            ('macosx-10.9-universal2', [self.INTEL, self.ARM], 'macosx_10_9_universal2'), ('macosx-14.2-arm64', [self.ARM], 'macosx_14_2_arm64'),
        ):
            with mock.patch('sysconfig.get_platform', lambda system=system: system):
                self.assertEqual(platform_tags.of(macho(*machines)), [wanted])

    def test_windows(self):
        for machine, wanted in (0x8664, 'win_amd64'), (0xaa64, 'win_arm64'):
            library = b'MZ' + bytes(58) + struct.pack('<I', 64) + b'PE\0\0' + struct.pack('<H', machine)
            self.assertEqual(platform_tags.of(library), [wanted])

    def test_others(self):
        for library in b'', b'text', b'\x7fELF\1\1' + bytes(99), b'\x7fELF\2\2' + bytes(99):
            with self.assertRaises(SystemExit):
                platform_tags.of(library)


class Packages(unittest.TestCase):
    def setUp(self):
        self.folder = pathlib.Path(tempfile.mkdtemp())
        self.addCleanup(shutil.rmtree, self.folder)
        for name in 'bindings/python', 'bindings/c', 'generated':
            shutil.copytree(TOP / name, self.folder / name, ignore=shutil.ignore_patterns('__pycache__', 'rust', '*.so'))
        shutil.copy(TOP / 'LICENSE', self.folder)

    def run_in(self, code, folder=None, **more):
        folder = folder or self.folder / 'bindings/python'
        run = subprocess.run([sys.executable, '-B', '-c', code], cwd=folder, env={**os.environ, **more}, stdout=subprocess.PIPE, text=True, check=True)
        return run.stdout.strip()

    def test_source_archives_are_the_same(self):
        found = []
        for day in 1, 2:
            with mock.patch('time.time', lambda day=day: 86400 * day), tempfile.TemporaryDirectory() as folder:
                name = build_wheel.build_sdist(folder)
                found.append((pathlib.Path(folder) / name).read_bytes())
        self.assertEqual(found[0], found[1])
        # it makes the same again of what is in it
        (self.folder / 'sdist.tar.gz').write_bytes(found[0])
        shutil.unpack_archive(self.folder / 'sdist.tar.gz', self.folder / 'unpacked')
        inner = next((self.folder / 'unpacked').iterdir())
        name = self.run_in('import build_wheel; print(build_wheel.build_sdist("."))', inner)
        self.assertEqual((inner / name).read_bytes(), found[0])

    def test_metadata(self):
        name = self.run_in('import build_wheel; print(build_wheel.prepare_metadata_for_build_wheel(".."))')
        said = (self.folder / 'bindings' / name / 'METADATA').read_text()
        self.assertRegex(said, r'(?s)^Metadata-Version: 2\.1\nName: capnp_canonical\n.*\nLicense-File: LICENSE\n.*\n\nCanonical form of ')

    def test_editable(self):
        """A program sees what is changed in the folder, and the library is found there."""
        name = self.run_in('import build_wheel; print(build_wheel.build_editable(".."))')
        site = self.folder / 'site'
        with zipfile.ZipFile(self.folder / 'bindings' / name) as wheel:
            wheel.extractall(site)
            self.assertEqual(sorted(it for it in wheel.namelist() if '/' not in it), ['__editable__.capnp_canonical.pth'])
        with open(self.folder / 'bindings/python/capnp_canonical/__init__.py', 'a') as file:
            file.write('changed = 7\n')
        code = f'import site; site.addsitedir({str(site)!r}); import capnp_canonical; print(capnp_canonical.changed, capnp_canonical._library.library._name)'
        library = self.folder / 'bindings/python/capnp_canonical' / build_wheel.LIBRARY
        self.assertEqual(self.run_in(code, self.folder, CAPNP_CANONICAL_LIBRARY='', PYTHONPATH=''), f'7 {library}')


if __name__ == '__main__':
    unittest.main()
