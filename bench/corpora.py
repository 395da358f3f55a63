"""The corpora of the libraries' benchmarks, printed by the peer."""

import os
import re
import subprocess

TEXT_MEGABYTES = 1
STEP_MIXES = ("step", "step_deep")


def output(*words, **options):
    return subprocess.run(words, stdout=subprocess.PIPE, check=True, **options).stdout.decode()


def write_corpora(peer, work):
    """Writes the corpora into a folder, and tells how many bytes the action texts have."""
    def write(name, text):
        with open(os.path.join(work, name), "w") as file:
            file.write(text)

    texts = output(peer, "corpus", "text", str(TEXT_MEGABYTES))
    write("texts", texts)
    actions, values = [], []
    for line in output(peer, "corpus", "eval").splitlines():
        end = line.rindex("}") + 1
        actions.append(line[:end] + "\n")
        values.append(re.sub("[(),]", " ", line[end:]) + "\n")
    write("actions", "".join(actions))
    write("values", "".join(values))
    write("messages", output(peer, "corpus", "wire"))
    for mix in STEP_MIXES:
        write(mix, output(peer, "corpus", mix))
    return len(texts) - texts.count("\n")
