"""``python3 -m hizmorke.gate``."""

import sys

from hizmorke.gate import main

sys.exit(main())
