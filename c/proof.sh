#!/bin/sh
# Builds the proved library, or a proved program, and tells it from one that no proof made.
#
#   proof.sh make KEPT BUILT COMMAND..   runs COMMAND, which is to build BUILT. If its last verdict is `logic=proved`,
#                                        BUILT is copied to KEPT, and that line and its checksum to KEPT.proof
#   proof.sh check KEPT                  fails if KEPT isn't the library that KEPT.proof tells of
#   proof.sh seal KEPT LIBRARY           writes LIBRARY.proof, for a library that was made of the checked KEPT alone and of files of C
#
# A file *.proof has three lines: the verdict, the checksum (SHA-256), and the line of the kit that proved.
set -eu

refuse() {
    echo "proof.sh: $1" >&2
    exit 1
}

is_proved() {
    case $1 in
    'logic=proved '*) ;;
    *) refuse "$kept: no proof made it: its build says '$1'" ;;
    esac
}

verb=$1 kept=$2
case $verb in
make)
    built=$3
    shift 3
    said=$kept.said
    rm -f "$kept" "$kept.proof" "$said.failed"
    { "$@" 2>&1 || : >"$said.failed"; } | tee "$said"
    [ ! -e "$said.failed" ] || refuse "$kept: its build failed"
    verdict=$(grep '^logic=' "$said" | tail -n 1)
    is_proved "$verdict"
    cp "$built" "$kept"
    { echo "$verdict" && sha256sum <"$kept" && "${RT:-rt}" version; } >"$kept.proof"
    ;;
check)
    [ -r "$kept.proof" ] || refuse "$kept: no proof made it"
    is_proved "$(sed -n 1p "$kept.proof")"
    [ "$(sed -n 2p "$kept.proof")" = "$(sha256sum <"$kept")" ] || refuse "$kept: it isn't what was proved"
    ;;
seal)
    { sed -n 1p "$kept.proof" && sha256sum <"$3" && sed -n 3p "$kept.proof"; } >"$3.proof"
    ;;
esac
