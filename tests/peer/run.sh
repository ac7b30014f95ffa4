#!/bin/sh
# run.sh [PROGRAM]: compares PROGRAM, or ./capnp_canon at the top of the repository, with C++ Cap'n Proto, and runs the corpus
# of tests/corpus over both.
exec python3 "$(dirname "$0")/compare.py" "$@"
