"""The tools beside clio, a folder for each, and what they have in common."""
import sys

if sys.version_info < (3, 11):
    sys.exit(f"clio's tools need Python 3.11 or later, and this is {sys.version.split()[0]}")
