"""python3 -m heronditch: the command."""

import sys

from .command import main

sys.exit(main())
