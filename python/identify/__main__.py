"""`python3 -m identify` is the command `./identify`."""
import sys

from .cli import main

sys.exit(main())
