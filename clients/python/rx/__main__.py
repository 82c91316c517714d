"""`python3 -m rx JOURNAL`."""
import sys

from .shell.main import main

sys.exit(main(sys.argv[1:]))
