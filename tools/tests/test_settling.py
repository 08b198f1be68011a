"""The clock that looks up what a word decides, beside the plain one."""
import copy
import random
import unittest

from rtn.clock import Clash, Netlist, State
from rtn.images import read_image
from rtn.random_gates import Gates
from rtn.random_processors import Kind, random_processor
from rtn.runs import started
from rtn.settling import WordClock

CLASHES = '''code I : 8 size 16 at PC; register PC : 4 in B;
    bus B : 4 { I[3:0] when I[4]; PC when I[5]; }
    memory M : 4 size 3 addr 2 write B at I[1:0] when I[6];'''


class Alike(unittest.TestCase):
    """Both clocks go through the same states."""

    def check(self, text: str, words: list[int], memory: str = '', cycles: int = 30) -> None:
        netlist = Netlist(text)
        fast = WordClock(netlist)
        plain, quick = (started(netlist, memory) for _ in range(2))
        for cycle in range(cycles):
            word = words[cycle % len(words)]
            plain, quick = self.after(netlist, plain, word), self.after(fast, quick, word)
            self.assertEqual(plain, quick, cycle)
            if isinstance(plain, str):
                return

    @staticmethod
    def after(clock: Netlist | WordClock, state: State, word: int) -> State | str:
        try:
            return clock.clock(copy.copy(state), word)
        except Clash as clash:
            return str(clash)

    def test_random_gates(self):
        for seed in range(20):
            made = Gates(random.Random(seed), with_file=seed % 3 == 2)
            text, image, memory = made.text(), read_image(made.image()), made.memory()
            with self.subTest(seed=seed):
                self.check(text, [word.number for word in image.words] or [0], memory)

    def test_random_processors(self):
        for seed, kind in enumerate(Kind):
            pick = random.Random(seed)
            made = random_processor(pick, kind)
            width = Netlist(made.text).code.width
            with self.subTest(kind=kind):
                self.check(made.text, [pick.getrandbits(width) for _ in range(20)])

    def test_a_clash(self):
        fast = WordClock(Netlist(CLASHES))
        state = {'PC': 5, 'M': [0, 0, 0]}
        self.assertEqual(fast.clock(state, 0x49), {'PC': 0, 'M': [0, 0, 0]})
        self.assertEqual(fast.clock(state, 0x59), {'PC': 9, 'M': [0, 9, 0]})
        with self.assertRaisesRegex(Clash, 'B'):
            fast.clock(state, 0x30)


if __name__ == '__main__':
    unittest.main()
