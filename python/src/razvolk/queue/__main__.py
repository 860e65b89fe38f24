"""`python3 -m razvolk.queue` is razvolk-queue."""

import sys

from ._command import main

sys.exit(main())
