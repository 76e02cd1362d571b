"""The words that the program has for a number are those of docs/CODES.md, and each number there has some. The page has
each number that an error type of a crate gives."""

import re
import unittest
from pathlib import Path

TOP = Path(__file__).resolve().parents[2]
# Faults of calls of the libraries that no program makes with such values: a count of jobs, and one of lanes.
OF_LIBRARIES_ALONE = {90, 91}


class Codes(unittest.TestCase):
    """docs/CODES.md beside the table of crates/rev_sentences."""

    def setUp(self):
        page = (TOP / "docs/CODES.md").read_text()
        self.listed = {int(number) for number in re.findall(r"^- \*\*(\d+) ", page, re.M)}
        self.told = dict(re.findall(r"^- (\d+): (.*)$", page, re.M))
        table = (TOP / "crates/rev_sentences/src/meanings.rt").read_text()
        self.in_tables = {int(number) for number in re.findall(r"^\| (\d+) \|", page, re.M)}
        self.known = dict(re.findall(r"^ *(\d+) => \"(.*)\",$", table, re.M))

    def test_words_are_those_of_the_page(self):
        self.assertEqual(self.told, self.known)

    def test_each_number_of_the_page_has_words(self):
        self.assertGreater(len(self.listed), 50)
        self.assertEqual(self.listed - {int(number) for number in self.known}, set())

    def test_each_number_of_an_error_type_stands_on_the_page(self):
        given = set()
        for source in TOP.glob("crates/*/src/*.rt"):
            for body in re.findall(r"pub fn (?:code|number)\(&?self\).*?\n    }\n", source.read_text(), re.S):
                given |= {int(number) for number in re.findall(r"=> (?:Some\()?(\d+)\)?,", body)}
        self.assertGreater(len(given), 60)
        self.assertEqual(given - self.listed - self.in_tables, OF_LIBRARIES_ALONE)


if __name__ == "__main__":
    unittest.main()
