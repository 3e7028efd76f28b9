#!/usr/bin/env bash
# The manual pages of an installation under a short and under a long prefix: they give no warning, have the header's version and name the page on
# formats where it is, and tracerules(1) the guide; libtrace(3) names all that the header offers. Run from the repository's root.
set -euo pipefail
dir=$(mktemp -d)
trap 'rm -rf "$dir"' EXIT
fail() {
    echo "manual: $1"
    exit 1
}
export LC_ALL=C.UTF-8 MANROFFSEQ='' MANWIDTH=80
version=$(sed -n 's/^#define TRACE_VERSION_[A-Z]* //p' include/trace.h | paste -sd .)

for prefix in /usr "/opt/$(printf 'long-%.0s' {1..40})/x"; do
    make --no-print-directory install DESTDIR="$dir" PREFIX="$prefix"
    pages=$dir$prefix/share/man
    for page in "$pages"/man*/*; do
        name=$(basename "$page")
        # a page of one line hands on to another, which man finds from the folder of the pages
        warnings=$(cd "$pages" && man --warnings -E UTF-8 -l -Tutf8 -Z "${page#"$pages"/}" 2>&1 >/dev/null)
        [ -z "$warnings" ] || fail "$name under $prefix: $warnings"
        man -M "$pages" "${name##*.}" "${name%.*}" >"$dir/text"
        grep -q "^trace $version " "$dir/text" || fail "$name has another version than $version"
        grep -qF " $prefix/share/doc/trace/FORMATS.md" "$dir/text" || fail "$name names no page on formats under $prefix"
        [ "$name" != tracerules.1 ] || grep -qF " $prefix/share/doc/trace/GUIDE.md" "$dir/text" || fail "$name names no guide under $prefix"
    done
done

for name in $(grep -oE '\btrace_[a-z_]+' include/trace.h | sort -u) $(sed -n 's/^#define \(TRACE_[A-Z_]*\) .*/\1/p' include/trace.h | grep -vE '^TRACE_REFUSED_'); do
    grep -qw "$name" man/libtrace.3.in || fail "libtrace(3) does not name $name"
done
echo "manual: ok"
