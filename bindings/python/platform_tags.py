"""The tags of a wheel, read from the file of the shared library in it: for which systems, processors and versions of the C
library it is. Reads ELF of 64 bits, the form of Linux and the BSDs; Mach-O, of macOS; and PE, of Windows.
"""
import re
import struct
import sysconfig

MACHINES = {
    'elf': {62: 'x86_64', 183: 'aarch64', 21: 'ppc64le', 243: 'riscv64', 258: 'loongarch64'},
    'macho': {0x01000007: 'x86_64', 0x0100000c: 'arm64'},
    'pe': {0x8664: 'amd64', 0xaa64: 'arm64'},
}
# The libraries that a wheel for manylinux may load (PEP 600).
ALLOWED = re.compile(r'(lib(c|m|dl|rt|pthread)\.so\.\d+|ld-linux[-\w]*\.so\.\d+|ld64\.so\.\d+)$')
# What a library with relocations in the newest form needs, and the version of glibc that has it.
RELATIVE = {'GLIBC_ABI_DT_RELR': 'GLIBC_2.36'}
# The least versions of glibc that Python's own tools give to a processor.
LEAST = {'x86_64': (2, 5), 'riscv64': (2, 31), 'loongarch64': (2, 36)}
LEAST_OF_OTHERS = 2, 17
# Tags that were in use before those with a version of glibc, and mean the same.
OLD = {(2, 5): 'manylinux1', (2, 12): 'manylinux2010', (2, 17): 'manylinux2014'}


class Elf:
    """What the dynamic section of a library says."""

    def __init__(self, data):
        self._data = data
        if data[4:6] != b'\2\1':
            raise SystemExit("the library isn't for 64 bits, little-endian")
        self.machine = MACHINES['elf'].get(self._number('<H', 18))
        start, size, count = self._number('<Q', 32), self._number('<H', 54), self._number('<H', 56)
        self._parts = [struct.unpack_from('<IIQQQQ', data, start + size * it) for it in range(count)]
        entries = [pair for kind, _, at, _, _, length in self._parts if kind == 2 for pair in struct.iter_unpack('<qQ', data[at:at + length])]
        self._values = dict(entries)
        self._texts = self._place(self._values[5]) if 5 in self._values else 0
        self.loads = [self._text(value) for tag, value in entries if tag == 1]

    def _number(self, form, at):
        return struct.unpack_from(form, self._data, at)[0]

    def _place(self, address):
        """Where the byte with this address is in the file."""
        return next(at + address - start for kind, _, at, start, _, size in self._parts if kind == 1 and start <= address < start + size)

    def _text(self, offset):
        at = self._texts + offset
        return self._data[at:self._data.index(b'\0', at)].decode()

    def versions(self):
        """The versions of other libraries' symbols that it needs, such as GLIBC_2.14."""
        at = self._place(self._values[0x6ffffffe]) if 0x6ffffffe in self._values else None
        while at is not None:
            _, count, _, first, step = struct.unpack_from('<HHIII', self._data, at)
            one = at + first
            for _ in range(count):
                _, _, _, name, more = struct.unpack_from('<IHHII', self._data, one)
                yield self._text(name)
                one += more
            at = at + step if step else None


def of_elf(data):
    """The tags of a library for Linux. If it needs more than glibc, or another C library, only those of this system."""
    elf = Elf(data)
    other = [it for it in elf.loads if not ALLOWED.match(it)]
    here = sysconfig.get_platform().replace('-', '_').replace('.', '_')
    if not here.startswith('linux_') or other or elf.machine is None:
        return [here]
    found = [re.match(r'GLIBC_(\d+)\.(\d+)', RELATIVE.get(it, it)) for it in elf.versions()]
    if not all(found):
        return [here]
    needed = max([(int(it[1]), int(it[2])) for it in found] + [LEAST.get(elf.machine, LEAST_OF_OTHERS)])
    wanted = next((it for it in OLD if it >= needed), needed)
    old = [f'{OLD[wanted]}_{elf.machine}'] if wanted in OLD else []
    return [f'manylinux_{wanted[0]}_{wanted[1]}_{elf.machine}', *old]


def of_macho(data):
    """The tags of a library for macOS: for all the processors that it has code for, and the version that Python has."""
    if data[:4] == b'\xca\xfe\xba\xbe':
        count = struct.unpack_from('>I', data, 4)[0]
        kinds = [struct.unpack_from('>I', data, 8 + 20 * it)[0] for it in range(count)]
    else:
        kinds = [struct.unpack_from('<I', data, 4)[0]]
    names = {MACHINES['macho'].get(it, 'unknown') for it in kinds}
    version = re.match(r'macosx-(\d+)\.(\d+)', sysconfig.get_platform())
    major, minor = (int(version[1]), int(version[2])) if version else (11, 0)
    if names == {'arm64'} and major < 11:
        # the first version for this processor
        major, minor = 11, 0
    name = names.pop() if len(names) == 1 else 'universal2'
    return [f'macosx_{major}_{minor}_{name}']


def of_pe(data):
    """The tag of a library for Windows."""
    machine = struct.unpack_from('<H', data, struct.unpack_from('<I', data, 60)[0] + 4)[0]
    return [f'win_{MACHINES["pe"].get(machine, "unknown")}']


def versions_of(tag):
    """The version of glibc and the processor that a tag for Linux names; None for one without a version."""
    tag = next((re.sub(rf'^{name}_', f'manylinux_{major}_{minor}_', tag) for (major, minor), name in OLD.items() if tag.startswith(f'{name}_')), tag)
    found = re.match(r'manylinux_(\d+)_(\d+)_(\w+)$', tag)
    return found and ((int(found[1]), int(found[2])), found[3])


def of(data, wanted=None):
    """The tags of a wheel with this library. `wanted` is a tag that the user sets: refused if the library needs a later glibc
    than it names, or another processor."""
    if data[:4] == b'\x7fELF':
        tags = of_elf(data)
    elif data[:4] in (b'\xca\xfe\xba\xbe', b'\xcf\xfa\xed\xfe'):
        tags = of_macho(data)
    elif data[:2] == b'MZ':
        tags = of_pe(data)
    else:
        raise SystemExit("the library isn't a shared library of a system that is known")
    if not wanted:
        return tags
    asked, needed = versions_of(wanted), versions_of(tags[0])
    if asked and (not needed or asked[1] != needed[1] or asked[0] < needed[0]):
        raise SystemExit(f'the library is for {tags[0]}, so a wheel with it can\'t be for {wanted}')
    return [wanted]
