#!/bin/sh
# The Python that runs the front: the system's, the only one that sees Debian's packages, where it is new enough; else that of the path.
python=/usr/bin/python3
"$python" -ISc 'import sys; sys.exit(sys.version_info < (3, 11))' 2> /dev/null || python=python3
exec "$python" "$@"
