"""The lines that timing programs print: what was done, its size, how often it was done, what it added up to, and its nanoseconds."""


def nanos_by(path):
    """By the work and its size: the nanoseconds of doing it once, in each run."""
    found = {}
    for line in open(path):
        work, size, times, _, nanos = line.split()
        found.setdefault((work, int(size)), []).append(int(nanos) / int(times))
    return found
