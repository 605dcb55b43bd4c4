"""Windows beside a model that remembers each number."""
import random
import unittest

from krbrelay import Code, Refusal, Taken, Window


def outcome(window, number):
    """The code of the refusal, or None."""
    try:
        window.take(number)
    except Refusal as refused:
        return refused.code
    return None


class Windows(unittest.TestCase):
    def test_beside_a_model(self):
        generator = random.Random(7)
        window, taken = Window(1000), set()
        for _ in range(5000):
            top = max(taken, default=1000)
            number = max(1000, top + generator.randrange(-80, 4))
            expected = None
            if taken and number <= top - 64:
                expected = Code.TOO_OLD
            elif number in taken:
                expected = Code.REPEATED
            self.assertEqual(outcome(window, number), expected)
            if expected is None:
                taken.add(number)
            window = Window.of(window.taken)
        self.assertGreater(len(taken), 100)

    def test_first(self):
        window = Window(100)
        self.assertEqual([outcome(window, number) for number in (99, 36, 35, 100, 100)],
                         [Code.REPEATED, Code.REPEATED, Code.TOO_OLD, None, Code.REPEATED])
        self.assertEqual(window.taken, Taken(100, 2**64 - 1))
        self.assertEqual(Window().taken, Taken(0, 0))

    def test_arguments(self):
        for number in (-1, 2**64):
            self.assertRaises(ValueError, Window, number)
            self.assertRaises(ValueError, Window().take, number)
            self.assertRaises(ValueError, Window.of, Taken(0, number))
        self.assertRaises(TypeError, Window().take, "7")


if __name__ == "__main__":
    unittest.main()
