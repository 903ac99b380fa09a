#!/bin/sh
# copy.sh TO NAME..: copies files and folders of the checkout into the folder TO, without what rt keeps in crates/*/out.
set -eu
cd "$(dirname "$0")/.."
to=$(cd "$1" && pwd)
shift
find "$@" -path 'crates/*/out' -prune -o -type d -print | while IFS= read -r folder; do mkdir -p "$to/$folder"; done
find "$@" -path 'crates/*/out' -prune -o -type f -print | while IFS= read -r file; do cp -p "$file" "$to/$file"; done
