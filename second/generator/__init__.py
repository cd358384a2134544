"""Cases for casebook and tagrun, from a seed."""
