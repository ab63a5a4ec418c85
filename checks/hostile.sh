#!/usr/bin/env bash
# Makes things hard for the built program: memory that is refused, files and devices that fail, texts that are cut, broken or
# mixed. Each answer has to be a whole one with its status, and the same again. checks/hostile.py says how it is called,
# what it tries and what it expects. It takes some minutes; `.ci/run` runs `checks/hostile.sh --short`, which takes less than one.
exec python3 "$(dirname "$0")/hostile.py" "$@"
