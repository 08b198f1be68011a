"""Netlists that are clocked on images beside programs: a counting loop that keeps its variable in a
register."""
import dataclasses
import random
import unittest

from rtn.checks import Way, Ways
from rtn.clock import Netlist, State
from rtn.following import Follower, Viewed, read_viewed
from rtn.images import read_image
from rtn.random_states import random_state
from rtn.reading import Fault
from rtn.sources import read_source
from rtn.syntax import Name
from tests.support import EXAMPLES, example, needs_record, record
from tests.test_checks import ANSWER, WAYS

IMAGE, SOURCE, A16 = (example(name) for name in
                      ('checked/down.a16.img', 'checked/down.src', 'a16.rtn'))
CYCLES = 100


def follower(image: str = IMAGE, source: str = SOURCE, ways: Ways | None = WAYS) -> Follower:
    return Follower(Netlist(A16), read_viewed(image), read_source(source), ways)


def started(count: int) -> State:
    """A state in which the variable has a number, and nothing else is 0."""
    state = Netlist(A16).zeros()
    state['ACC'] = 4711
    state['M'] = [9] * len(state['M'])
    state['M'][3] = count
    return state


class Reading(unittest.TestCase):
    """Views and what is hidden, of texts with remarks."""

    def test_remarks(self):
        viewed = read_viewed(IMAGE)
        self.assertEqual(viewed.views, {(3, 'a'): Name('ACC')})
        self.assertEqual(viewed.hidden, frozenset())
        self.assertEqual((len(viewed.image.words), viewed.image.marks), (8, {3: '0', 7: 'end'}))

    def test_without_remarks(self):
        viewed = read_viewed(IMAGE.split('view')[0])
        self.assertEqual((viewed.views, viewed.hidden), ({}, frozenset()))

    def test_hidden(self):
        hidden = IMAGE.replace('view', 'hide 0 a\nhide end a\nview')
        self.assertEqual(read_viewed(hidden).hidden, {('0', 'a'), ('end', 'a')})

    def test_no_image(self):
        for text in ('', 'image 12 0\ntemps 0\n', IMAGE.removesuffix('done\n'), ANSWER):
            with self.subTest(text=text), self.assertRaisesRegex(Fault, 'no image text'):
                read_viewed(text)


class Following(unittest.TestCase):
    """What is right, and what differs."""

    def check(self, told: str, image: str = IMAGE, count: int = 2, **more) -> None:
        self.assertRegex(follower(image, **more).differs(started(count), CYCLES) or '', told)

    def test_right(self):
        for count in (0, 1, 7):
            self.assertIsNone(follower().differs(started(count), CYCLES))
            self.assertEqual(follower().length(started(count), CYCLES), 3 + 3 * count + 2)

    def test_a_start_is_kept(self):
        start = started(5)
        follower().differs(start, CYCLES)
        self.assertEqual(start, started(5))

    def test_cut_off(self):
        self.assertIsNone(follower().differs(started(65535), CYCLES))
        self.assertIsNone(follower().length(started(65535), CYCLES))

    def test_other_words(self):
        self.check('^clock 6, mark 3: a is 65529, not 1$', IMAGE.replace('0501', '0509'))
        self.check('^clock 11, mark 7: a is 2, not 0$', IMAGE.replace('word 6 0403', 'word 6 0404'))
        self.check('^clock 12: the last mark was at 3$', IMAGE.replace('0603', '0605'))

    def test_other_views(self):
        self.check('^clock 6, mark 3: a is 2, not 1$', IMAGE.replace('view 3 a ACC\n', ''))
        self.check('^clock 3, mark 3: a is 3, not 2$',
                   IMAGE.replace('ACC', 'add(ACC,1#16)'), ways=None)

    def test_hidden(self):
        unseen = IMAGE.replace('view 3 a ACC', 'hide 0 a')
        self.assertIsNone(follower(unseen).differs(started(2), CYCLES))
        left = IMAGE.replace('word 6 0403', 'word 6 0404')
        self.assertIsNone(follower(left.replace('view', 'hide end a\nview'))
                          .differs(started(2), CYCLES))

    def test_other_labels(self):
        self.check('^clock 3, mark 3: the program is at 0, not 1$',
                   IMAGE.replace('mark 3 0', 'mark 3 1'))
        self.check('^clock 11, mark 7: the program is at end, not 1$',
                   IMAGE.replace('mark 7 end', 'mark 7 1'))

    def test_an_end_that_goes_on(self):
        self.check('^the end does not stay$', IMAGE.replace('0607', '0606'))

    def test_other_clocks(self):
        def told(start: Way = WAYS.start, **turns) -> Ways:
            return Ways(start, {**WAYS.turns, **{(3, int(name[1:])): way
                                                 for name, way in turns.items()}})

        self.check('^clock 3, mark 3: 3 clocks, where 2 to 3 is told', ways=told(Way(2, 3)))
        self.check('^clock 6, mark 3: 3 clocks, where 4 to 3 is told', ways=told(_0=Way(4, 3)))
        self.check('^clock 6, mark 3: 3 clocks, where 3 to 7 is told', ways=told(_0=Way(3, 7)))
        self.check('^clock 6, mark 3: 3 clocks, where None is told', ways=told(_0=None))
        self.check('^clock 11, mark 7: 2 clocks, where 1 to 7 is told', ways=told(_1=Way(1, 7)))

    @needs_record
    def test_two_memories(self):
        """A variable of the bank counts as one of the memory does."""
        files = [EXAMPLES / name for name in ('twin.rtn', 'dot.src', 'dot.part')]
        image, netlist = read_image(record().done('dual', *files)), Netlist(example('twin.rtn'))
        source = read_source(example('dot.src'))
        start = random_state(random.Random(0), netlist)
        self.assertIsNone(Follower(netlist, Viewed(image), source).differs(start, 1000))
        *others, last = image.places
        last = dataclasses.replace(last, address=last.address + 1)
        moved = dataclasses.replace(image, places=(*others, last))
        self.assertRegex(Follower(netlist, Viewed(moved), source).differs(start, 1000), ': s is ')

    def test_a_clash(self):
        bus = 'bus B : 16 { ACC when I[0]; ACC when I[1]; }'
        followed = Follower(Netlist(A16 + bus), read_viewed(IMAGE), read_source(SOURCE))
        self.assertEqual(followed.differs(started(2), CYCLES), 'B clashes at 2')


if __name__ == '__main__':
    unittest.main()
