"""Generated work: its lines at the ends of its range, and words that are of no form."""

from .form import Row


def lines(count, pairs):
    return f"elements {count}\nself subset\npairs {pairs}\nvariant least {count}\n"


# A number of elements, and how many pairs are listed.
NUMBERS = [(1, 1), (2, 3), (3, 6), (5, 12), (12, 33), (100, 297), (1000, 2997)]

# Name, and words of no form.
WORDS = [
    ("no number", "work"),
    ("the number nought", "work 0"),
    ("a leading nought", "work 01"),
    ("a number above all", "work 1001"),
    ("a number of many digits", "work " + "9" * 30),
    ("two numbers", "work 5 5"),
    ("a sign", "work +5"),
    ("no digits", "work x"),
    ("a digit and a letter", "work 5x"),
    ("an empty word", ["work", ""]),
    ("a command in capitals", "WORK 5"),
]


def row(name, words, status, output, files={}):
    return Row("work: " + name, files, words, status, output)


def rows():
    numbers = [row(f"{count} elements", f"work {count}", 0, lines(count, pairs)) for count, pairs in NUMBERS]
    words = [row(name, words, 3, "usage\n") for name, words in WORDS]
    beside = row("a file of the name of the generated module", "work 3", 0, lines(3, 6), {"work.dtd": "x"})
    return [*numbers, *words, beside]
