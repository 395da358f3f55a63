"""Trials of many runs, which are begun by hand."""
