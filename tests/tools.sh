#!/usr/bin/env bash
# tools.sh PACKAGE[:COMMAND]..: installs the Debian packages whose command is missing, and says so first. Where that cannot be done it says what is
# missing and ends well: the gate leaves out the tests that need it.
set -uo pipefail
missing=()
for pair in "$@"; do
    command -v "${pair##*:}" >/dev/null || missing+=("${pair%%:*}")
done
if [ ${#missing[@]} -eq 0 ]; then
    exit 0
fi
echo "tools: missing for the tests: ${missing[*]}"
if [ "$(id -u)" -ne 0 ] || ! command -v apt-get >/dev/null; then
    echo "tools: they can be installed from Debian's packages by root alone: apt-get install ${missing[*]}"
    exit 0
fi
echo "tools: installing Debian's packages ${missing[*]} .."
(apt-get update -q && apt-get install -y -q "${missing[@]}") </dev/null >/dev/null || echo "tools: they cannot be installed here"
exit 0
