#!/usr/bin/env bash
# Captured side information: bash side.sh fs=48000 rate=128000 mode=joint bound=4 crc=1 < examples/frame.txt
exec bash "$(dirname "$0")/tools/program.sh" mp2_side "$@"
