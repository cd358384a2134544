"""What tools/promises holds to the sources: the pages of docs/ and README.md."""
