#!/usr/bin/env python3
"""Tries what the cases are made with: equal cases, sentences that 01 and 02 lack, and the longest path."""
import unittest

import make
import snake


def a_case(rule, *statements):
    case = make.form.Case("trial", "")
    case.rule, case.statements = rule, [(line, []) for line in statements]
    return case


class Names(unittest.TestCase):
    RULE = "No pair: none."

    def test_cases_are_numbered(self):
        cases = [a_case(self.RULE, "hall 1 1 1", "build"), a_case(self.RULE, "hall 1 1 1", "built")]
        make.name("trial", cases, {})
        self.assertEqual([case.name for case in cases], ["trial-01", "trial-02"])

    def test_equal_cases_are_refused(self):
        for first, second in (("hall 1 1 1", "hall 1 1 1"), ("plan 0 0 0 0 # 0", "plan 0 0 0 0 # nought")):
            known = {}
            make.name("trial", [a_case(self.RULE, first)], known)
            with self.assertRaisesRegex(SystemExit, "^other-01 asks the same as trial-01$"):
                make.name("other", [a_case(self.RULE, second)], known)

    def test_a_sentence_that_01_and_02_lack_is_refused(self):
        with self.assertRaisesRegex(SystemExit, "no sentence of document 01 or 02"):
            make.name("trial", [a_case("No pair: some.", "build")], {})


class Snake(unittest.TestCase):
    def test_no_path_of_a_small_square_is_longer(self):
        for size in range(2, 5):
            self.assertEqual(len(snake.longest(size)), longest_tried(size))

    def test_its_cells_touch_no_others(self):
        path = snake.longest(6)
        for at, cell in enumerate(path):
            self.assertCountEqual(snake.beside(cell, set(path)), path[max(at - 1, 0):at] + path[at + 1:at + 2])


def longest_tried(size):
    """The cells of the longest path, by trying every one."""
    square = {(x, y) for x in range(size) for y in range(size)}
    paths, most = [[cell] for cell in square], 0
    while paths:
        path = paths.pop()
        most = max(most, len(path))
        ahead = [cell for cell in snake.beside(path[-1], square) if snake.beside(cell, set(path)) == [path[-1]] and cell not in path]
        paths += [[*path, cell] for cell in ahead]
    return most


if __name__ == "__main__":
    unittest.main()
