#!/usr/bin/env python3
"""The server, from a checkout: persist_server.py STORES [--listen ADDR:PORT]. Tested (tools/tests), not proved; it is persist/server.py."""
import sys

from persist import server

if __name__ == '__main__':
    sys.exit(server.main(sys.argv[1:]))
sys.modules[__name__] = server
