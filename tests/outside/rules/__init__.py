"""The rules, written a second time from the documents alone."""
