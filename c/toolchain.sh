#!/bin/sh
# Makes the folder that `rattle build --toolchain` wants for aarch64, out of the kit's clang, which has that target,
# and of the files of Debian's packages gcc-aarch64-linux-gnu and libc6-dev-arm64-cross.
#
#   toolchain.sh FOLDER      the kit is that of `rt`, which is ${RT:-rt}
set -eu
kit=$(dirname "$("${RT:-rt}" doc)")
folder=$1
libc=/usr/aarch64-linux-gnu/lib
gcc=$(dirname "$(aarch64-linux-gnu-gcc -print-libgcc-file-name)")

rm -rf "$folder"
mkdir -p "$folder/bin" "$folder/lib"
for tool in rattle-x64 clang ld.lld llvm-ar; do
    ln -s "$kit/toolchain/bin/$tool" "$folder/bin/$tool"
done
for file in Scrt1.o crti.o crtn.o libc.so.6 libc_nonshared.a libm.so.6 libgcc_s.so.1 ld-linux-aarch64.so.1; do
    cp -L "$libc/$file" "$folder/lib/"
done
for file in crtbeginS.o crtendS.o libgcc.a; do
    cp "$gcc/$file" "$folder/lib/"
done
