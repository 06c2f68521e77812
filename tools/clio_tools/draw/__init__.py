"""clio-draw: a local page on which the lines of a mapping are drawn."""
