"""The second model: the tag of document 01, written from the documents alone."""
