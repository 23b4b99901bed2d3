"""Columns of a CSV file, translated: each record stays as it is, with its answers and its reason in columns more."""
