#!/bin/sh
# Proves and builds the library for C: below PREFIX/include the header, and below PREFIX/lib an archive with the
# toolchain's runtime in it (libfedbundle.a), a shared library (libfedbundle.so) and fedbundle.pc. Both have no names
# but those of the exports, so that a program can have two libraries of the toolchain.
#
# It needs rt, cc, and ar, ld and objcopy of binutils.
#
# usage: library PREFIX
unset CDPATH
top=$(dirname -- "$(dirname -- "$(readlink -f -- "$0")")")
crate=$top/crates/fedbundle_c

stop() {
    echo "library: $1" >&2
    exit 1
}

[ $# -eq 1 ] && [ -n "$1" ] || stop 'usage: library PREFIX'
mkdir -p -- "$1/include" "$1/lib/pkgconfig" || exit 1
prefix=$(cd -- "$1" && pwd) || exit 1
runtime=$(dirname -- "$(rt doc)")/c/liblibc_c.a
version=$(sed -n '/const VERSION: /{n;p;}' "$top/crates/command_line/src/help_texts.rt")
[ -n "$version" ] || stop 'help_texts.rt names no version'
[ -f "$runtime" ] || stop "there is no $runtime"

(cd -- "$crate" && rt lib) || stop 'it is not proved'
objects=$(mktemp -d) || exit 1
trap 'rm -rf -- "$objects"' EXIT
mkdir -- "$objects/library" "$objects/runtime"
(cd -- "$objects/library" && ar x "$crate/out/libfedbundle_c.a") || stop 'the archive is not read'
(cd -- "$objects/runtime" && ar x "$runtime") || stop 'the runtime is not read'

# The heap is all that the library wants of the runtime.
object=$objects/fedbundle.o
ld -r -o "$object" "$objects"/library/*.o "$objects"/runtime/heap*.o || stop 'no object'
objcopy --wildcard --keep-global-symbol='fedbundle_*' "$object" || stop 'the names of the runtime stay global'
rm -f -- "$prefix/lib/libfedbundle.a"
ar rcs "$prefix/lib/libfedbundle.a" "$object" || stop 'no archive'
cc -shared -Wl,-soname,libfedbundle.so.0 -Wl,-z,defs -Wl,-z,relro,-z,now -o "$prefix/lib/libfedbundle.so.0" \
    "$object" || stop 'no shared library'
ln -sf libfedbundle.so.0 "$prefix/lib/libfedbundle.so"
install -m 644 -- "$top/include/fedbundle.h" "$prefix/include/fedbundle.h" || exit 1
cat >"$prefix/lib/pkgconfig/fedbundle.pc" <<EOF
prefix=$prefix
includedir=\${prefix}/include
libdir=\${prefix}/lib

Name: fedbundle
Description: the store under a replica of a SPIFFE trust server
Version: $version
Cflags: -I\${includedir}
Libs: -L\${libdir} -lfedbundle
EOF
