"""Brings tables that are there to what a mapping demands; clio-load uses these modules."""
