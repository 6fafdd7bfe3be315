#!/bin/sh
# Compares what was counted with what limits.txt allows, so that nothing grows unseen.
#
#   limits.sh COUNTED..      files of lines `NAME NUMBER`; prints each with its limit, and fails where one is above it,
#                            or has none; these are told once more at the end
set -eu
awk 'FNR == 1 { file++ }
    /^#/ || NF < 2 { next }
    file == 1 { limit[$1] = $2; next }
    {
        name = $1 in limit ? $1 : $1 ~ /^iface_/ ? "call" : $1 ~ /^bound:/ ? "bound" : $1
        told = !(name in limit) ? "has no limit" : $2 + 0 > limit[name] + 0 ? "is above its limit" : ""
        line = sprintf("%-30s %7d of %7d %s", $1, $2, limit[name], told)
        print line
        if (told != "") bad = bad line "\n"
    }
    END { printf "%s", bad; exit bad != "" }' "$(dirname "$0")/limits.txt" "$@"
