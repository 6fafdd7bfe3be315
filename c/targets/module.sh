#!/bin/sh
# Writes the module that the kit's compiler makes of the proved library, as text, before clang compiles it.
#
#   module.sh OUT.ll
#
# The library is built once more (over_gate.sh), with a toolchain whose clang keeps what it is given.
set -eu
here=$(cd "$(dirname "$0")" && pwd)
kit=$(dirname "$("${RT:-rt}" doc)")
out=$(realpath -m "$1")
work=$(mktemp -d)
trap 'rm -rf "$work"' EXIT

mkdir "$work/bin" "$work/kept"
ln -s "$kit/toolchain/lib" "$work/lib"
for tool in rattle-x64 ld.lld llvm-ar; do
    ln -s "$kit/toolchain/bin/$tool" "$work/bin/$tool"
done
cat >"$work/bin/clang" <<WRAPPER
#!/bin/sh
for word in "\$@"; do
    case \$word in *.bc | *.ll) [ ! -f "\$word" ] || cp "\$word" "$work/kept/module" ;; esac
done
exec "$kit/toolchain/bin/clang" "\$@"
WRAPPER
chmod +x "$work/bin/clang"
"$here/../over_gate.sh" --toolchain "$work" -o "$work/libiface_c.a"
"$kit/toolchain/bin/clang" -x ir "$work/kept/module" -S -emit-llvm -O0 -Xclang -disable-llvm-passes -o "$out"
