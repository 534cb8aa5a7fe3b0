#!/usr/bin/env bash
# The planner: bash plan.sh fs=48000 rate=192000 mode=single < examples/tone.txt
exec bash "$(dirname "$0")/tools/program.sh" mp2_plan "$@"
