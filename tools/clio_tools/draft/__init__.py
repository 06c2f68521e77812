"""The schemas that are there, as one side of a mapping text, and the files that this side reads."""
