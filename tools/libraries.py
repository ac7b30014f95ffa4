"""The crates that `crates.txt` lists, their libraries as a run of `rt ci` or `rt check` left them, and the arguments that make
the toolchain's program `rattle` check or build a crate with these libraries. `rt check` and `rt lib` ignore what `rt ci`
left, and would prove it again."""
import functools
import pathlib
import subprocess

TOP = pathlib.Path(__file__).resolve().parents[1]
# The folders of a crate that a check reads.
PARTS = 'src', 'specs', 'proofs'
# The static libraries for C, each with the name that its C file in generated/ and its header in bindings/c/ have.
FOR_C = {'capnp_canonical': 'capnp_canonical', 'capnp_layout_c': 'capnp_layout'}


class Crates:
    """The crates of a tree (by default this one): what each depends on and its kind; and the folder of the toolchain."""

    def __init__(self, top=TOP):
        self.top = top
        self.stands_on, self.kind = {}, {}
        for line in (top / 'crates.txt').read_text(encoding='utf-8').splitlines():
            if line.strip() and not line.startswith('#'):
                head, _, words = line.partition(':')
                name, *kind = head.split()
                self.stands_on[name], self.kind[name] = words.split(), kind

    @functools.cached_property
    def kit(self):
        page = subprocess.run(['rt', 'doc'], stdin=subprocess.DEVNULL, stdout=subprocess.PIPE, encoding='utf-8', check=True).stdout
        return pathlib.Path(page.strip()).parent

    def below(self, name):
        """The crates of the repository that a crate depends on, directly or not, lowest first."""
        found = {}
        for word in self.stands_on[name]:
            if word in self.stands_on:
                found.update({**self.below(word), word: None})
        return found

    def rlib(self, name):
        """The path of the library of a crate, or of one of the toolchain."""
        return self.top / f'crates/{name}/out/rlib/{name}.rlib' if name in self.stands_on else self.kit / f'rlibs/{name}.rlib'

    def is_built(self, name):
        """Whether the library of a crate is built from the crate's current sources."""
        if not (self.rlib(name) / 'format').is_file():
            return False
        built = self.rlib(name).stat().st_mtime
        files = (it for part in PARTS for it in (self.top / 'crates' / name / part).rglob('*') if it.is_file())
        return all(it.stat().st_mtime <= built for it in files)

    def lacking(self, name):
        """The libraries that a crate depends on and that aren't built from their current sources, lowest first."""
        return [below for below in self.below(name) if not self.is_built(below)]

    def words(self, name):
        """The arguments of `rattle check` and `rattle build` for a crate, run in its folder or in a copy of that."""
        yield from ('--crate-name', name, 'src/main.rt' if (self.top / f'crates/{name}/src/main.rt').is_file() else 'src/lib.rt')
        for library in dict.fromkeys(['std', *self.stands_on[name]]):
            yield from ('--extern', f'{library}={self.rlib(library)}')
        for folder in [self.kit / 'rlibs', *(self.rlib(it).parent for it in self.below(name))]:
            yield from ('-L', f'dependency={folder}')
        yield from ('--antt-project', f'{self.kit}/rattle/logic/antt-project.json', '--logic-built', f'{self.kit}/logic_built')
        yield from ('--links', f'{name}=', *(['--crate-type', 'staticlib'] if 'staticlib' in self.kind[name] else []))
