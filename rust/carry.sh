#!/bin/sh
# Copies the proved library to FOLDER/TARGET, as a package of the crate carries it, with what tells of its proof.
#
#   carry.sh FOLDER
#
# From FUMITORYGATE_LIB_DIR, or from where `make -C c` built it. TARGET is the machine's, unless it is set.
set -eu
own=$(pwd)
cd "$(dirname "$0")"
target=${TARGET:-$(rustc -vV | sed -n 's/^host: //p')}
case $1 in /*) folder=$1/$target ;; *) folder=$own/$1/$target ;; esac
from=${FUMITORYGATE_LIB_DIR:-../c/build}
mkdir -p "$folder"
for name in libiface.a libiface_c.a; do
    [ -e "$from/$name" ] || { echo "carry.sh: there is no $name in $from" >&2 && exit 1; }
    ../c/proof.sh check "$from/$name"
    cp "$from/$name" "$from/$name.proof" "$folder/"
done
