"""The client under its name of a checkout: `from persist_client import Session`. Tested (tools/tests), not proved; it is persist/client.py."""
import sys

from persist import client

sys.modules[__name__] = client
