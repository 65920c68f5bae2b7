#!/usr/bin/env bash
# Runs a command of voyager over a folder:  examples/voyager.sh FOLDER COMMAND..
# It runs the proved program where there is one, and else what `rt try` builds without proof in about a minute, over a
# copy of the folder's files. The error output says which.
set -eu
folder=$(cd "$1" && pwd)
shift
cd "$(dirname "$0")/../crates/voyager"

if [ -x out/voyager ]; then
    echo "voyager.sh: runs the proved program, crates/voyager/out/voyager" >&2
    exec out/voyager --export-dir "$folder" "$@"
fi

echo "voyager.sh: there is no proved program, crates/voyager/out/voyager, so rt try builds one without proof" >&2
files=()
while IFS= read -r file; do
    files+=(--data "move/${file#"$folder/"}=$file")
done < <(find "$folder" -type f)
exec rt try "${files[@]}" -- --export-dir move "$@"
