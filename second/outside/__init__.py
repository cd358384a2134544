"""Checks that need built programs and so stand outside the gate; `tools/outside` runs them."""
