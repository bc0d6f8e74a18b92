"""The scripts of examples/schedules. Their comments say with which words `oathd sim` runs each and what it prints."""
from itertools import takewhile
from pathlib import Path

FOLDER = Path(__file__).resolve().parent.parent.parent / "examples/schedules"


def read_schedule(text):
    """Returns the words after the program's name, and what is printed.

    The words are the line that holds `oathd sim`, up to `<`. What is printed are the lines after `# prints:`."""
    words, printed, is_printed = None, "", False
    for line in text.splitlines():
        if not line.startswith("#"):
            if is_printed:
                break
            continue
        said = line[1:].strip()
        if said.startswith("oathd "):
            words = said.split("<")[0].split()[1:]
        elif said == "prints:":
            is_printed = True
        elif is_printed and said:
            printed += said + "\n"
    return words, printed


def about(text):
    """Returns what the first paragraph of the comments says."""
    comments = [line[1:].strip() for line in text.splitlines() if line.startswith("#")]
    return " ".join(takewhile(bool, comments))
