#!/bin/sh
# Proves and builds static libraries, each with all that it stands on, unless that is built already, and puts them where programs are linked with them:
#
#     archive.sh NAME..    as dta and dta_facts: target/staticlib/libNAME.a
set -eu
cd "$(dirname "$0")/.."
mkdir -p target/staticlib
for name in "$@"; do
    (cd "crates/$name" && rt lib)
    cp "crates/$name/out/lib$name.a" "target/staticlib/lib$name.a"
done
