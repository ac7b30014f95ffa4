"""Names messages by a hash, compares and finds equal ones: `python3 -m capnp_canonical --help`."""
import sys

from capnp_canonical._commands import main

sys.exit(main(sys.argv[1:]))
