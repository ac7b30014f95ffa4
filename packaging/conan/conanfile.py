"""The libraries capnp_canonical and capnp_layout, for Conan 2."""
from conan import ConanFile
from conan.errors import ConanInvalidConfiguration
from conan.tools.cmake import CMake, CMakeToolchain, cmake_layout
from conan.tools.files import copy, get, rmdir


class CapnpCanonical(ConanFile):
    name = 'capnp_canonical'
    version = '@VERSION@'
    description = "Canonical form of Cap'n Proto messages, and readers and builders of untrusted ones in place"
    license = 'MIT'
    topics = 'capnproto', 'serialization', 'canonicalization'
    settings = 'os', 'arch', 'compiler', 'build_type'
    options = {'shared': [True, False], 'fPIC': [True, False]}
    default_options = {'shared': False, 'fPIC': True}
    languages = 'C'
    implements = ['auto_shared_fpic']

    def validate(self):
        if self.settings.compiler == 'msvc':
            raise ConanInvalidConfiguration('needs gcc or clang')

    def layout(self):
        cmake_layout(self, src_folder='src')

    def source(self):
        get(self, '@URL@/capnp_canonical-@VERSION@.tar.gz', sha256='@SHA256@', strip_root=True)

    def generate(self):
        toolchain = CMakeToolchain(self)
        toolchain.variables['CAPNP_CANONICAL_PROGRAM'] = False
        toolchain.generate()

    def build(self):
        cmake = CMake(self)
        cmake.configure()
        cmake.build()

    def package(self):
        CMake(self).install()
        copy(self, 'LICENSE', self.source_folder, f'{self.package_folder}/licenses')
        for folder in 'lib/cmake', 'lib/pkgconfig', 'share':
            rmdir(self, f'{self.package_folder}/{folder}')

    def package_info(self):
        for name in 'capnp_canonical', 'capnp_layout':
            part = self.cpp_info.components[name]
            part.libs = [name]
            part.set_property('cmake_target_name', f'{name}::{name}')
            part.set_property('pkg_config_name', name)
