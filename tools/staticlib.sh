#!/bin/sh
# Proves and builds the library, target/staticlib/libyokberd.a, and writes yokberd.pc beside it, by which pkg-config finds it and c/yokberd.h. The version
# is that of the header.
#
#     tools/staticlib.sh
set -eu
cd "$(dirname "$0")/.."
mkdir -p target/staticlib
(cd crates/yokberd_c && rt lib)
cp crates/yokberd_c/out/libyokberd_c.a target/staticlib/libyokberd.a
version=$(sed -n 's/^#define YOKBERD_VERSION "\(.*\)"$/\1/p' c/yokberd.h)
cat >target/staticlib/yokberd.pc <<END
prefix=\${pcfiledir}/../..
includedir=\${prefix}/c
libdir=\${pcfiledir}

Name: yokberd
Description: C++ signatures from CodeView type and id indexes, and the streams of .pdb files
Version: $version
Cflags: -I\${includedir}
Libs: -L\${libdir} -lyokberd
END
echo "staticlib: target/staticlib has libyokberd.a and yokberd.pc, version $version"
