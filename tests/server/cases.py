#!/usr/bin/python3
"""The server over PostgreSQL: its answers, forks of it, who may use it, and its tables. The cluster of each
case is its own, in the folder of the case."""
import place  # noqa: F401  pylint: disable=unused-import
import answers  # noqa: F401  pylint: disable=unused-import
import forks  # noqa: F401  pylint: disable=unused-import
import tables  # noqa: F401  pylint: disable=unused-import
import who_may  # noqa: F401  pylint: disable=unused-import
from shared import main

if __name__ == "__main__":
    main()
