"""The worked examples of the documents and the cases for sentences of 01 and 02: lines that try them, and answers."""

from .document_001 import EXAMPLES as EXAMPLES_001
from .document_003 import EXAMPLES as EXAMPLES_003
from .document_004 import EXAMPLES as EXAMPLES_004
from .document_01 import EXAMPLES as EXAMPLES_01
from .document_01 import SESSION_INPUT, SESSION_OUTPUT
from .sentences import CASES, SESSION_CASES

EXAMPLES = EXAMPLES_01 + EXAMPLES_001 + EXAMPLES_003 + EXAMPLES_004

# All of casebook's in the order of its stored lines: 01's examples, all cases, then the examples of the other documents.
CASEBOOK_PARTS = EXAMPLES_01 + CASES + EXAMPLES_001 + EXAMPLES_003 + EXAMPLES_004

__all__ = ["CASEBOOK_PARTS", "CASES", "EXAMPLES", "SESSION_CASES", "SESSION_INPUT", "SESSION_OUTPUT"]
