"""The worked rows, as data."""
