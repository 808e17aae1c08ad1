"""`python3 -m rachdoum` is the command `rachdoum`."""
import sys

from .command import main

if __name__ == "__main__":
    sys.exit(main())
