#!/bin/sh
# Runs sefwllon from a clone, with nothing installed, or as it is installed.
here=$(CDPATH= cd -- "$(dirname -- "$(readlink -f -- "$0")")" && pwd)
PYTHONPATH="$here${PYTHONPATH:+:$PYTHONPATH}" exec "$here/python.sh" -m sefwllon "$@"
