#!/bin/sh
# What isn't there, or doesn't run, is named and left out: stand-ins that fail, as a rustup without a toolchain does.
set -e
fakes=$(mktemp -d)
trap 'rm -rf "$fakes"' EXIT
for tool in rustc clang c++ pkg-config; do
    printf '#!/bin/sh\nexit 1\n' > "$fakes/$tool"
    chmod +x "$fakes/$tool"
done
said=$(PATH="$fakes:$PATH" make -s CLANG="$fakes/clang" CXX="$fakes/c++" \
    headers check_procedures check_skeleton check_sqlite check_rust check_page)
for what in C++ Procedures Skeleton SQLite Rust page; do
    echo "$said" | grep -q "^$what: left out, " || { echo "left out: nothing is said of $what"; exit 1; }
done
echo "left out: what isn't there is named"
