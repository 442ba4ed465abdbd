"""The command `caf` behind the shell's few lines: python3 -IBS share/launcher WORDS."""

import os
import sys

if sys.version_info < (3, 8):
    sys.stderr.write("caf: python3 is Python %d.%d, and caf needs Python 3.8 or a later one\n" % sys.version_info[:2])
    sys.exit(1)

from calls import main  # noqa: E402 (an older Python can't read it)

sys.exit(main(os.path.dirname(os.path.dirname(os.path.dirname(os.path.abspath(__file__))))))
