#!/bin/bash
# Builds the extension firnuubal._fast, which reads records, into a folder, as _fast.abi3.so. It serves each Python from 3.8
# on. It wants gcc and the headers of the python3 on the path; the same ones make the same bytes.
#
#     build.sh FOLDER
set -eu
into=$(cd "$1" && pwd)/_fast.abi3.so
cd "$(dirname "$0")"
rm -f "$into"
headers=$(python3 -c 'import sysconfig; print(sysconfig.get_paths()["include"])' 2>/dev/null || true)
if [ ! -f "$headers/Python.h" ] || ! command -v gcc >/dev/null; then
    echo "bindings: there is no Python.h or no gcc here, so _fast.abi3.so, which makes Python's readers fast, is left out"
    exit
fi
gcc -std=c99 -Wall -Wextra -Werror -O2 -fPIC -shared -s -Wl,--build-id=none -ffile-prefix-map="$headers"=python \
    -I ../../c -I "$headers" _fast.c -o "$into"
