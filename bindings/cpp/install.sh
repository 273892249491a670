#!/bin/sh
# Installs the C++ header beside the C library, what CMake's find_package looks for, and what ThreadSanitizer is told:
#
#   install.sh PREFIX         PREFIX is where `bindings/c/build.sh install PREFIX` has installed the C library
set -eu
here=$(cd "$(dirname "$0")" && pwd)

fail() {
    echo "install.sh: $1" >&2
    exit 1
}

[ $# = 1 ] || fail "usage: install.sh PREFIX"
for it in include/dirgwako.h lib/libdirgwako.a; do
    [ -f "$1/$it" ] || fail "there is no $1/$it: install the C library there, by bindings/c/build.sh and bindings/c/build.sh install $1"
done
abi=$(sed -n 's/^#define DIRGWAKO_ABI //p' "$1/include/dirgwako.h")
mkdir -p "$1/include/dirgwako" "$1/lib/cmake/dirgwako" "$1/share/dirgwako"
cp "$here/dirgwako.hpp" "$1/include/"
cp "$here"/dirgwako/*.hpp "$1/include/dirgwako/"
cp "$here/dirgwako-config.cmake" "$1/lib/cmake/dirgwako/"
cp "$here/tsan.supp" "$1/share/dirgwako/"
cat > "$1/lib/cmake/dirgwako/dirgwako-config-version.cmake" << END_OF_VERSION
# The version is that of the C interface: one alone is compatible with itself.
set(PACKAGE_VERSION "$abi")
if(PACKAGE_FIND_VERSION_MAJOR STREQUAL "$abi")
    set(PACKAGE_VERSION_COMPATIBLE TRUE)
endif()
if(PACKAGE_FIND_VERSION STREQUAL "$abi")
    set(PACKAGE_VERSION_EXACT TRUE)
endif()
END_OF_VERSION
