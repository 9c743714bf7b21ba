"""What the scripts of .ci share: the program and how it is asked, the cases and examples, made-up inputs, and images apart from the program."""
from shared.program import Session, program, written
from shared.repository import TOP, read, read_crates, read_named
from shared.score import Score, differing, keep

__all__ = ['TOP', 'Score', 'Session', 'differing', 'keep', 'program', 'read', 'read_crates', 'read_named', 'written']
