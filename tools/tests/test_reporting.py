"""What programs take and use: profiles, changes and the page of a netlist."""
import html.parser
import json
import pathlib
import re
import tempfile
import unittest
import unittest.mock

from drawing.nets import Graph
from reporting.encoding import Encoder, path_of
from reporting.html import element
from reporting.profiles import Machine, Usage, changed_statements, run_of
from reporting.tasks import Task, read_tasks
from reporting.views import Transfer, transfer_of
from rtn.clock import Netlist
from rtn.images import image_text, read_image
from rtn.names import Store, read_setting
from rtn.patterns import Pattern
from rtn.reading import Fault, read_netlist
from rtn.runs import TWIN, went
from tests.support import EXAMPLES, RECORD, needs_graphviz, needs_record, record, run_here

A16, XY, C10I = (EXAMPLES / f'{name}.rtn' for name in ('a16', 'xy', 'c10i'))
COUNT, DOT, SORT = (EXAMPLES / f'{name}.src' for name in ('count', 'dot', 'sort'))
DOT_MEMORY, DOT_PART = EXAMPLES / 'dot.mem', EXAMPLES / 'dot.part'

# Bit 7 jumps to a field, bit 6 keeps A; else A takes a number. Cell 0 is never written.
SMALL = '''
    code I : 8 size 16 at PC;
    register PC : 4 in case I[7] { 0: add(PC, 1#4); 1: I[3:0]; };
    register A : 4 in I[3:0] when not(I[6]);
    memory M : 4 size 4 addr 2 write A at I[1:0] when 0#1;
'''


class Tasks(unittest.TestCase):
    """Programs of a command line."""

    def test_words(self):
        source, part, memory = map(pathlib.Path, ('p.src', 'p.part', 'p.mem'))
        self.assertEqual(read_tasks(['p.src', 'q.src', 'p.mem', 'p.part', 'r']),
                         [Task(source), Task(pathlib.Path('q.src'), part, memory),
                          Task(pathlib.Path('r'))])
        for words in (['p.mem'], ['p.src', 'p.mem', 'q.mem'], ['p.src', 'a.part', 'b.part']):
            with self.subTest(words=words), self.assertRaises(Fault):
                read_tasks(words)


class Runs(unittest.TestCase):
    """How often words run."""

    def test_counts(self):
        # 0: A := 3, 1: to 3, 2: to 2, 3: to 0
        words = image_text(8, ['03', 'c3', 'c2', 'c0'], 'mark 3 end')
        run = run_of(Netlist(SMALL), read_image(words), '')
        self.assertEqual((run.counts, run.cycles), ((1, 1, 0, 0), 2))

    def test_no_end_in_sight(self):
        words = image_text(8, ['c1', 'c0'])
        with unittest.mock.patch('reporting.profiles.LONGEST', 7):
            run = run_of(Netlist(SMALL), read_image(words), '')
        self.assertEqual((run.counts, run.cycles), ((4, 3), None))

    def test_a_start_that_there_is_none(self):
        for line in ('Q 1', 'A 0 1', 'M 1', 'M 4 1'):
            with self.subTest(line=line), self.assertRaisesRegex(Fault, f': {line}$'):
                run_of(Netlist(SMALL), read_image(image_text(8, ['c0'])), f'{line}\n')


@needs_record
class Profiles(unittest.TestCase):
    """Profiles of examples."""

    def profile(self, netlist: pathlib.Path, task: Task, is_tuned=False, *settings: str):
        machine = Machine(record(), netlist)
        listing = machine.listing(task, is_tuned)
        return machine, machine.profile(task, listing, map(read_setting, settings))

    def test_cycles_are_those_of_go(self):
        for netlist, name in ((XY, 'dot'), (XY, 'sort'), (A16, 'wht'),
                              (EXAMPLES / 'm16.rtn', 'dot')):
            task = Task(EXAMPLES / f'{name}.src', memory=EXAMPLES / f'{name}.mem')
            _, profile = self.profile(netlist, task)
            image = profile.listing.image
            due = went(record(), netlist, task.source, task.memory, image).cycles
            self.assertEqual((profile.run.cycles, profile.clocks), (due, due), name)

    def test_statements(self):
        _, profile = self.profile(XY, Task(DOT, memory=DOT_MEMORY))
        statements = profile.listing.statements
        self.assertEqual([len(statement.rows) for statement in statements], [2, 2, 4, 5, 4])
        self.assertEqual(list(map(profile.spent, statements)), [2, 2, 28, 40, 32])

    def test_settings(self):
        task = Task(SORT, memory=EXAMPLES / 'sort.mem')
        _, unsorted = self.profile(XY, task)
        _, in_order = self.profile(XY, task, False, 'x=1,2,3,4,5,6,7,8', 'other=1')
        _, zeros = self.profile(XY, Task(SORT))
        self.assertEqual(in_order.run, zeros.run)
        self.assertLess(zeros.clocks, unsorted.clocks)

    def test_a_bank(self):
        _, profile = self.profile(TWIN, Task(DOT, DOT_PART, DOT_MEMORY))
        self.assertEqual((profile.words, profile.cycles), (17, '96'))

    def test_usage(self):
        machine, profile = self.profile(XY, Task(DOT, memory=DOT_MEMORY))
        usage = Usage(machine, [profile])
        told = {storage.name: str(storage) for storage in usage.storages}
        self.assertEqual((told['A'], told['IX']),
                         ('A: 4 of 20 transfers', 'IX: 1 of 5 transfers'))
        counter = next(storage for storage in usage.storages if storage.name == 'PC')
        self.assertIn('PC := add(PC,1#8)', counter.used)
        fields = {field.name: str(field) for field in usage.fields}
        self.assertEqual(fields['alu I[28:24]'], 'alu I[28:24]: 4 of 32 values')
        words = [word.number for word in profile.listing.image.words]
        for bit, value in usage.constant_bits():
            self.assertEqual({word >> bit & 1 for word in words}, {value})

    def test_what_became_shorter(self):
        machine = Machine(record(), XY)
        by_compile, by_tune = (machine.listing(Task(SORT), is_tuned) for is_tuned in (False, True))
        self.assertEqual(list(changed_statements(by_compile, by_tune)),
                         [(5, 5, 4), (7, 5, 4), (8, 4, 3)])

    def test_the_tool(self):
        run = run_here('profile.py', RECORD, A16, COUNT, DOT, '--mem', 'n=3')
        self.assertEqual((run.returncode, run.stderr), (0, ''))
        for line in ('count.src 14               37', 'dot.src   error no cover 3',
                     'count.src: 14 words, 37 cycles', 'M: 1 of 1 transfer'):
            self.assertIn(line, run.stdout.splitlines())
        run = run_here('profile.py', RECORD, XY, SORT, '--tune')
        self.assertRegex(run.stdout, r'(?m)line 10: x\[i \+ 1\] = t; \(4 by compile\)$')
        run = run_here('profile.py', RECORD, A16, COUNT, '--mem', 'q=3')
        self.assertEqual((run.returncode, run.stdout, run.stderr),
                         (1, '', 'profile: no program has a variable q\n'))

    def test_change_by_tune(self):
        with tempfile.TemporaryDirectory() as folder:
            other = pathlib.Path(folder) / 'other.rtn'
            old = (EXAMPLES / 'pack.rtn').read_text()
            other.write_text(old.replace('net g : 8 = I[15:8]', 'net g : 8 = I[7:0]'))
            run = run_here('change.py', RECORD, EXAMPLES / 'pack.rtn', other, DOT, DOT_MEMORY)
            self.assertEqual(run.stdout.splitlines()[-3:], [
                'dot.src 23    151    -> 25    167',
                'dot.src line 4: s = s + x[i] * y[i];: 11 -> 12 words',
                'dot.src line 4: for i = 0 to 7: step: 4 -> 5 words'])
        run = run_here('change.py', RECORD, C10I, C10I, DOT, DOT_MEMORY)
        self.assertRegex(run.stdout, r'(?m)^dot\.src error no cover 2 +-> error no cover 2$')
        run = run_here('change.py', RECORD, C10I, C10I, DOT, DOT_MEMORY, '--tune')
        self.assertRegex(run.stdout, r'(?m)^dot\.src (\d+) +(\d+) +-> \1 +\2$')


class Encodings(unittest.TestCase):
    """The bits of transfers, by hand."""

    def stretches(self, transfer: str, word: str, mode: tuple[str, int] | None = None,
                  text: str = SMALL) -> str:
        encoder = Encoder(read_netlist(text), mode)
        found = encoder.stretches(Pattern(0, transfer, word))
        self.assertEqual(sum(stretch.width for stretch in found), encoder.code.width)
        return ' '.join(stretch.text or '-' * stretch.width for stretch in found)

    def test_bits(self):
        for transfer, word, due in (
                ('PC := add(PC,1#4)', '00', '0 -------'),
                ('PC := slice(I,3,0)', '80', '1 --- I[3:0]'),
                ('A := slice(I,3,0)', '00', '- 0 -- I[3:0]'), ('A := A', '00', '--------')):
            self.assertEqual(self.stretches(transfer, word), due, transfer)

    def test_names_and_neighbours(self):
        text = SMALL.replace('I[7] {', 'top {').replace('I[3:0] when not(I[6])',
                                                        'f when and(top, next)')
        text += 'net top : 1 = I[7]; net next : 1 = I[6]; net f : 4 = I[3:0];'
        self.assertEqual(self.stretches('A := slice(I,3,0)', 'c0', text=text), '1 1 -- f I[3:0]')

    def test_a_mode(self):
        text = 'version 3;' + SMALL.replace('case I[7]', 'case xor(W, I[7])') + (
            'mode W : 1 in I[0] when I[5];')
        transfer = 'PC := slice(I,3,0)'
        self.assertEqual(self.stretches(transfer, '80', ('W', 0), text), '1 --- I[3:0]')
        self.assertEqual(self.stretches(transfer, '00', ('W', 1), text), '0 --- I[3:0]')
        self.assertIsNone(path_of(Graph(read_netlist(text)), Pattern(0, transfer, '00')))


class Views(unittest.TestCase):
    """Transfers in the view of two memories."""

    STORE = Store('M', 8, 'N', 16)

    def test_places(self):
        for transfer, due in (
                ('A := read(M,zext(slice(I,3,0),5))', 'A := read(M,slice(I,3,0))'),
                ('M[add(zext(X,5),16#5)] := A', 'N[X] := A'), ('M[zext(X,5)] := A', 'M[X] := A'),
                ('A := add(X,read(M,add(zext(read(M,zext(X,5)),5),16#5)))',
                 'A := add(X,read(N,read(M,X)))'), ('A := zext(X,5)', 'A := zext(X,5)')):
            found = transfer_of(Pattern(0, transfer, '00'), self.STORE)
            own = Pattern(0, due, '00')
            self.assertEqual(found, Transfer(own.storage, own.address, own.value), transfer)

    def test_without_a_bank(self):
        pattern = Pattern(0, 'M[zext(X,5)] := read(M,zext(X,5))', '00')
        self.assertEqual(transfer_of(pattern, Store('M', 8)),
                         Transfer('M', pattern.address, pattern.value))


class Elements(unittest.TestCase):
    """HTML as text."""

    def test_escapes(self):
        made = element('p', 'a < b ', element('b', '&'), klass='x "y"', id=None, data_n=3)
        self.assertEqual(made, '<p class="x &quot;y&quot;" data-n="3">a &lt; b <b>&amp;</b></p>')


class Balance(html.parser.HTMLParser):
    """Follows a page's elements, and collects the names of parts and of what is led to."""

    def __init__(self):
        super().__init__()
        self.open, self.names, self.led_to, self.elsewhere = [], [], [], []

    def handle_starttag(self, tag, attrs):
        given = dict(attrs)
        self.names += [given['id']] if 'id' in given else []
        self.led_to += [given['href'].lstrip('#')] if 'href' in given else []
        self.elsewhere += [key for key in ('src', 'xlink:href') if key in given]
        if tag != 'meta':
            self.open.append(tag)

    def handle_startendtag(self, tag, attrs):
        self.handle_starttag(tag, attrs)
        self.open.pop()

    def handle_endtag(self, tag):
        if self.open.pop() != tag:
            raise ValueError(f'{tag} ends at {self.getpos()}')


@needs_record
@needs_graphviz
class Pages(unittest.TestCase):
    """The page of a netlist."""

    def page(self, *words) -> str:
        with tempfile.TemporaryDirectory() as folder:
            run = run_here('report.py', RECORD, *words, '-o', folder)
            self.assertEqual((run.returncode, run.stderr), (0, ''))
            return pathlib.Path(run.stdout.strip()).read_text()

    def check(self, page: str) -> dict[str, dict]:
        """That a page is whole and needs no other; gives what its transfers light."""
        found = Balance()
        found.feed(page)
        self.assertEqual((found.open, found.elsewhere), ([], []))
        self.assertEqual(len(found.names), len(set(found.names)))
        self.assertLessEqual(set(found.led_to), set(found.names))
        ways = json.loads(re.search(r'const ways = (.*);\n', page)[1].replace('<\\/', '</'))
        for way in ways.values():
            self.assertLessEqual(set(way['parts']), set(found.names))
        return ways

    def test_example(self):
        page = self.page(XY, DOT, DOT_MEMORY, SORT)
        ways = self.check(page)
        self.assertTrue(all(way['parts'] for way in ways.values()))
        self.assertEqual(len({tuple(way['parts']) for way in ways.values()}), len(ways))
        for text in ('by compile and by tune: 18 words, 104 cycles',
                     '<h3>A: 5 of 20 transfers</h3>', 'seq I[31:29]: 4 of 8 values'):
            self.assertTrue(text in page, text)

    def test_two_netlists(self):
        page = self.page(A16, EXAMPLES / 'pair.rtn', EXAMPLES / 'add.src')
        self.check(page)
        self.assertTrue('a16.rtn -&gt; pair.rtn' in page)

    def test_modes_and_banks(self):
        ways = self.check(self.page(EXAMPLES / 'm16.rtn', DOT))
        self.assertEqual(sum(key.startswith('0-') for key in ways), 25)
        ways = self.check(self.page(TWIN, DOT, DOT_PART))
        self.assertTrue(all(way['parts'] for way in ways.values()))

    def test_a_refused_program(self):
        page = self.page(A16, DOT)
        self.check(page)
        self.assertTrue('<p class="fault">error no cover 3</p>' in page)


if __name__ == '__main__':
    unittest.main()
