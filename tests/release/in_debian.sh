#!/bin/sh
# in_debian.sh: installs the Debian packages of /packages, and uses them by pkg-config, CMake, Python and the shell. packages.sh runs
# it in a new Debian. Every command has to succeed.
set -eux
apt-get install -y /packages/*.deb
canonical=62cac392152416d2e5417a2626d7f3eae39e50670674e711134666536187c231
work=$(mktemp -d) && cd "$work"
message=/packages/person.bin
examples=/usr/share/doc/libcapnp-canonical-dev/examples
is_canonical() {
    [ "$(sha256sum)" = "$canonical  -" ]
}

capnp_canon canon --flat "$message" | is_canonical
python3 -c 'import capnp_canonical, sys; sys.stdout.buffer.write(capnp_canonical.copy_flat(open(sys.argv[1], "rb").read()))' "$message" | is_canonical

cc -o by_pkg_config $examples/example.c $(pkg-config --cflags --libs capnp_canonical)
./by_pkg_config <"$message" | is_canonical
cc -static -o by_pkg_config_static $examples/example.c $(pkg-config --cflags --libs --static capnp_canonical)
./by_pkg_config_static <"$message" | is_canonical
cc -o reading /usr/share/doc/libcapnp-layout-dev/examples/reading.c $(pkg-config --cflags --libs capnp_layout)
ldd reading | grep libcapnp_layout.so.1

mkdir project
cp $examples/example.c $examples/example.cpp project
cat >project/CMakeLists.txt <<'END'
cmake_minimum_required(VERSION 3.13)
project(user C CXX)
set(CMAKE_CXX_STANDARD 17)
find_package(capnp_canonical 1.1 REQUIRED)
find_package(capnp_layout 1.1 REQUIRED)
add_executable(in_c example.c)
target_link_libraries(in_c capnp_canonical::capnp_canonical)
add_executable(in_c_static example.c)
target_link_libraries(in_c_static capnp_canonical::static)
add_executable(in_cpp example.cpp)
target_link_libraries(in_cpp capnp_canonical::capnp_canonical)
END
cmake -S project -B built && cmake --build built
for it in in_c in_c_static; do ./built/$it <"$message" | is_canonical; done
