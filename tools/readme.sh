#!/bin/sh
# readme.sh WORD: prints the C text of README whose first line has that word, for tests to hold to what stands.
set -eu
word=$1 awk '/^```/ { on = 0 } on; /^```c$/ { getline; on = index($0, ENVIRON["word"]); if (on) print }' "$(dirname "$0")/../README.md"
