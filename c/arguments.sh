#!/bin/bash
# Runs the examples that need a device with arguments that they refuse: what is wrong is told, by its word, and how they are called.
# It needs no network and no root, and makes no device.
#
#   arguments.sh FOLDER      of the built programs
set -eu
folder=$1
status=0

# STATUS TEXT PROGRAM ARGUMENT..: the program ends with this status, and a line of what it says on standard error has the text.
refuses() {
    local wanted=$1 text=$2 program=$3 said ended=0
    shift 3
    said=$(timeout 20 "$folder/$program" "$@" 2>&1 >/dev/null) || ended=$?
    [ "$ended" = "$wanted" ] && grep -qF -- "$text" <<<"$said" && return
    echo "arguments.sh: $program $*: status $ended, and not $wanted with '$text': $said" >&2
    status=1
}

own=192.168.69.4/24
peer=192.168.69.100
for program in tap_host slaac_echo segment_echo tcp_echo http_hello dhcp_host; do
    refuses 2 "usage: " "$program"
    refuses 2 'soon: not a number from 1' "$program" tap9 soon
    refuses 1 'no.such: no such device' "$program" no.such 60
done
for program in ping arping sweep gateway fetch lookup small_service; do
    refuses 2 "usage: $program DEVICE" "$program"
done
for program in ping arping; do
    refuses 1 'no.such: no such device' "$program" no.such $own $peer
    refuses 1 '192.168.69: bad address' "$program" no.such $own 192.168.69
    refuses 1 '192.168.69.4: bad address' "$program" no.such 192.168.69.4 $peer
    refuses 2 'few: not a number from' "$program" no.such $own $peer -c few
done
refuses 2 'COUNT 0 is until it is stopped' ping
refuses 2 '0: not a number from 1' arping no.such $own $peer -c 0
refuses 2 '0: not a number from' ping no.such $own $peer -i 0
refuses 1 'no.such: no such device' sweep no.such $own
refuses 1 'no.such: no such device' gateway no.such 10.1.0.1/24 tap9 10.2.0.1/24
refuses 1 'no.such: no such device' lookup no.such $own $peer www.example.com
refuses 1 'no.such: no such device' fetch no.such $own "http://$peer:8000/"
refuses 2 'ftp://x/: not http://HOST:PORT/PATH' fetch no.such $own ftp://x/
refuses 1 'no.such: no such device' small_service no.such 60 http://www.example.com/
refuses 1 'a.name.that.is.too.long: no such device' ping a.name.that.is.too.long $own $peer
exit $status
