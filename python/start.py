"""Starts the command from a checkout; where the module cannot be loaded, it says so in a sentence."""

import sys

try:
    from heronditch.command import main
except ImportError as error:
    sys.stderr.write(f"heronditch: {error}\n")
    sys.exit(2)

sys.exit(main())
