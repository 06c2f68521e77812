"""The databases that tools read and write."""
