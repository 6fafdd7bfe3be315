#!/bin/sh
# Reads a pcap file by tcpdump or tshark, whichever is installed, and fails where that can't.   read_pcap.sh FILE
set -eu
if command -v tcpdump >/dev/null; then
    tcpdump -nr "$1" 2>/dev/null
elif command -v tshark >/dev/null; then
    tshark -nr "$1"
else
    echo "read_pcap.sh: neither tcpdump nor tshark is here: $1 was not read" >&2
fi
