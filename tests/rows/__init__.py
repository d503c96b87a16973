"""The table: rows by subject."""

from . import (articles, attributes, catalogs, comparison, contents, entities, expansion, faults, flat_texts,
               forms, least, limits, modules, names, report, sections, separating, validity, verify, waiting, work)

SUBJECTS = (names, entities, expansion, waiting, sections, modules, catalogs, forms, contents, attributes, faults,
            limits, flat_texts, comparison, articles, validity, report, least, verify, separating, work)

# These have rows that go to limits of many millions of characters, and take a second or more each.
SLOW = (expansion, limits, articles, validity, report, least, separating)


def table():
    quick = [row for subject in SUBJECTS for row in subject.rows()]
    return quick + [row for subject in SLOW for row in subject.slow_rows()]
