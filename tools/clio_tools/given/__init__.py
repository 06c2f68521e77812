"""The target's tables, out of a database and as clio judge reads them."""
