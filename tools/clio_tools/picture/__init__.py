"""The picture of a mapping."""
