#!/usr/bin/env bash
# check.sh [RUN ARGUMENT...]
#
# Assembles every example into a temporary folder, compares the files with the stored network.bin and tokens.bin, runs
# simulate.py on them and compares what it prints with expected.txt. With RUN, a run program, this is also started in each
# folder (it reads network.bin and tokens.bin there) and what it prints is compared too; so it is in the folders of limits/.
# The last line is `N examples, D different`; the status is 0 where D is 0, 1 where it isn't, 2 where RUN isn't there.
set -u
case "${1-}" in
  /*) ;;
  */*) set -- "$PWD/$1" "${@:2}" ;;
esac
if [ $# -gt 0 ] && ! command -v "$1" > /dev/null; then
  echo "check.sh: there is no program $1" >&2
  exit 2
fi
here=$(cd "$(dirname "$0")" && pwd)
made=$(mktemp -d)
trap 'rm -r "$made"' EXIT
all=0
different=0

for text in "$here"/*/network.txt; do
  folder=$(dirname "$text")
  name=$(basename "$folder")
  all=$((all + 1))
  bad=
  if python3 "$here/assemble.py" --into "$made" "$folder"; then
    cmp -s "$made/$name/network.bin" "$folder/network.bin" || bad="$bad network.bin"
    cmp -s "$made/$name/tokens.bin" "$folder/tokens.bin" || bad="$bad tokens.bin"
    python3 "$here/simulate.py" "$made/$name" | cmp -s - "$folder/expected.txt" || bad="$bad simulate.py"
    if [ $# -gt 0 ]; then
      (cd "$made/$name" && "$@") | cmp -s - "$folder/expected.txt" || bad="$bad $1"
    fi
  else
    bad=" text"
  fi
  if [ -n "$bad" ]; then
    echo "$name:$bad"
    different=$((different + 1))
  fi
done
if [ $# -gt 0 ]; then
  for folder in "$here"/limits/*/; do
    all=$((all + 1))
    if ! (cd "$folder" && "$@") | cmp -s - "$folder/expected.txt"; then
      echo "limits/$(basename "$folder"): $1"
      different=$((different + 1))
    fi
  done
fi
echo "$all examples, $different different"
[ "$different" -eq 0 ]
