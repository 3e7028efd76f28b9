#!/usr/bin/env bash
# loaded.sh INSTALLED LOADED: the shared library of an installation: it exports the calls that the header declares and nothing else, it has its
# soname, and the program LOADED calls it. Run from the repository's root.
set -euo pipefail
trap 'echo "loaded: line $LINENO fails"' ERR
library=$1/lib/libtrace.so
major=$(sed -n 's/^#define TRACE_VERSION_MAJOR //p' "$1/include/trace.h")

diff <(sed -n 's/^uint64_t \(trace_[a-z_]*\)(.*/\1/p' "$1/include/trace.h" | sort) <(nm -D --defined-only "$library" | awk '{ print $3 }' | sort)
[ "$(objdump -p "$library" | awk '$1 == "SONAME" { print $2 }')" = "libtrace.so.$major" ]
"$2" "$library"
# found by its soname, as a program that is linked with it finds it
LD_LIBRARY_PATH=$1/lib "$2" "libtrace.so.$major"
echo "loaded: ok"
