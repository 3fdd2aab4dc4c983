"""The workloads of workloads.txt."""
import os

HERE = os.path.dirname(os.path.realpath(__file__))


def workloads(seed):
    """The name, the crate and the words of each line; the word SEED is this number."""
    with open(f"{HERE}/workloads.txt", encoding="utf-8") as lines:
        for line in lines:
            words = [str(seed) if it == "SEED" else it for it in line.split("#")[0].split()]
            if words:
                yield words[0], words[1], words[2:]


def run_in(checkout, words):
    """Of a workload's words those of its command line, the folder where it runs, and the file that is its standard input."""
    folder = f"{checkout}/bench"
    if words and words[-1].startswith("<"):
        return words[:-1], folder, f"{folder}/{words[-1][1:]}"
    return words, folder, os.devnull
