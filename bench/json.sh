#!/bin/bash
# Reads the JSON records of C files by Python's reader: each line is one object, its keys in the order of their bytes,
# and written without a space; and there are as many objects of each kind as the text records have.
#   bash bench/json.sh [PROGRAM [FILE.c ..]]
# With no program it takes ./stack, and with no file those of examples/.
set -eu
. "$(dirname "$0")/checker.sh"
[ $# -gt 1 ] && shift || set -- "$top"/examples/*.c
python3 - "$program" "$@" <<'EOP'
import json, subprocess, sys
program, files = sys.argv[1], sys.argv[2:]
lines = 0
for file in files:
    given = subprocess.run(["cc", "-E", file], capture_output=True).stdout
    objects = subprocess.run([program, "--json"], input=given, capture_output=True)
    texts = subprocess.run([program], input=given, capture_output=True)
    assert objects.returncode == texts.returncode, file
    kinds = {}
    for line in objects.stdout.decode("ascii").splitlines():
        found = json.loads(line)
        assert line == json.dumps(found, sort_keys=True, separators=(",", ":")), line
        kinds[found["type"]] = kinds.get(found["type"], 0) + 1
        lines += 1
    text = texts.stdout.decode("ascii")
    assert kinds.get("unstable", 0) == text.count(": unstable: "), file
    assert kinds.get("skipped", 0) == text.count(": skipped: "), file
    assert kinds["summary"] == 1, file
print(f"{len(files)} files, {lines} lines read")
EOP
