#!/bin/sh
# Prints the script that the named files make together: `put`, the text and `%%` for each module text (.scr), and each
# other file as it is. With --reception in front, the script begins with `profile reception`.
#
#   examples/put.sh examples/02_two_buyer/two_buyer.scr examples/02_two_buyer/good.script | scribmon watch
set -eu

if [ "${1-}" = --reception ]; then
  echo 'profile reception'
  shift
fi
if [ $# -eq 0 ]; then
  echo 'usage: put.sh [--reception] FILE..' >&2
  exit 2
fi
for file in "$@"; do
  if [ ! -r "$file" ]; then
    echo "put.sh: $file cannot be read" >&2
    exit 1
  fi
  case $file in
    *.scr) echo put && cat "$file" && echo '%%' ;;
    *) cat "$file" ;;
  esac
done
