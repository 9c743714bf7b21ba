"""Tools beside the program `persist`: a client, a journal, a prompt, pictures, and a server with a page.

    from persist import Session, must

What a session needs stands here too; the rest is in the modules `client`, `journal`, `shell`, `draw`, `history` and `server`.
Tested (tools/tests), not proved.
"""

from .client import PersistError, Session, must, read_text, split_input

# The version of the repository: the day of its landing. CHANGELOG.md says what came with it.
__version__ = '2026.12.2'

__all__ = ['PersistError', 'Session', '__version__', 'must', 'read_text', 'split_input']
