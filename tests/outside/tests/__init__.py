"""The tests that .ci/run runs, and what they share."""
