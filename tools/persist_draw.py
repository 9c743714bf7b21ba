#!/usr/bin/env python3
"""Pictures, from a checkout: persist_draw.py text | tree | records V. Tested (tools/tests), not proved; it is persist/draw.py."""
import sys

from persist import draw

if __name__ == '__main__':
    sys.exit(draw.main(sys.argv[1:]))
sys.modules[__name__] = draw
