#!/bin/sh
# Installs the library into a new folder, and tries it there as its users do: by pkg-config, linked
# shared and static, and from Python. It ends with another status than 0 if something fails.
#
#     try_installed.sh MAKE CC
set -eu
make=$1 cc=$2
cd "$(dirname "$0")"
room=$(mktemp -d)
trap 'rm -rf "$room"' EXIT
$make -s install DESTDIR="$room/root" PREFIX=/opt/piper
cp example.c pipe.py "$room"
lib=$room/root/opt/piper/lib
(
    cd "$room"
    export PKG_CONFIG_PATH="$lib/pkgconfig" PKG_CONFIG_SYSROOT_DIR="$room/root" LD_LIBRARY_PATH="$lib"
    found=$(pkg-config --cflags --libs piper)
    # shellcheck disable=SC2086
    $cc -std=gnu11 -o shared example.c $found -lpthread
    $cc -std=gnu11 -o static example.c $(pkg-config --cflags piper) "$lib/libpiper.a" -lpthread -ldl -lm
    test "$(./shared example.c)" = "$(wc -l < example.c)"
    test "$(env -u LD_LIBRARY_PATH ./static example.c)" = "$(wc -l < example.c)"
    readelf -d shared | grep -q 'NEEDED.*\[libpiper\.so\.0\]'
    test "$(python3 pipe.py libpiper.so.0)" = 'hello from Python'
)
$make -s uninstall DESTDIR="$room/root" PREFIX=/opt/piper
test -z "$(find "$room/root" ! -type d)"
$make -s install DESTDIR="$room/root" PREFIX=/opt/piper LIBDIR=/opt/piper/lib64 INCLUDEDIR=/opt/include
test -e "$room/root/opt/piper/lib64/libpiper.a" -a -e "$room/root/opt/include/piper.h"
