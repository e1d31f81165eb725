"""The reference with the words of pd:  python3 reference/pd.py WORDS.."""
import sys

if sys.version_info < (3, 11):
    sys.exit("pd: the reference needs Python 3.11, and this is %d.%d" % sys.version_info[:2])

from paradyn import pd  # noqa: E402

pd.run()
