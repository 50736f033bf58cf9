#!/usr/bin/env python3
"""Tests of check_documents.py: it finds each kind of mistake, and has no findings if there is no mistake."""
import os
import re
import sys
import tempfile
import unittest

TOOLS = os.path.dirname(os.path.abspath(__file__))
sys.path.insert(0, TOOLS)
import check_documents as check
from check_documents import Document, Tree
from places import Error

CODE = '''//! Readers, and looks.
pub struct Reader<'a, T> {
    rest: &'a [T],
}

impl<'a, T: Kind> Reader<'a, T> {
    /// Reads.
    pub fn read(&mut self) -> Result<u8, Wrong>
        ensures ok { OnOk result (self.new.rest ≡ []) }
        ensures leaves { Leaves self.old
            self.new }
        requires callable { F }
    {
        self.rest.next()
    }
}

impl From<Wrong> for Right {
    ghost from_gives = { λ a b. a ≡ b };
}

pub fn free()
    ensures { Free }
{}
'''
DEFINITIONS = '''-- What it leaves.
pub record Leaves {X : Type 0} (old new : X) : Type 0 where
  pub empty : new ≡ []
  pub unchanged : new ≡ old

abbrev pub Free : Type 0
Free = Unit
'''
FILES = {
    'crates/reader/src/lib.rt': CODE,
    'crates/reader/specs/Views.antt': DEFINITIONS,
    'docs/OTHER.md': '# Other\n\n## The `second` part, too\n',
}


class InATree(unittest.TestCase):
    """Documents in a small repository."""

    def setUp(self):
        self.folder = tempfile.TemporaryDirectory()
        self.addCleanup(self.folder.cleanup)
        for path, content in FILES.items():
            self.write(path, content)

    def write(self, path: str, content: str):
        """Writes a file of the repository."""
        path = os.path.join(self.folder.name, path)
        os.makedirs(os.path.dirname(path), exist_ok=True)
        with open(path, 'w', encoding='utf-8') as file:
            file.write(content)

    def document(self, content: str) -> Document:
        """A document with this content in the repository."""
        self.write('docs/PAGE.md', content)
        return Document(Tree(self.folder.name), 'docs/PAGE.md')

    def names(self, content: str) -> list[str]:
        """The findings in the names of a document."""
        return [it.what for it in check.findings_in_names(self.document(content))]

    def clauses(self, cell: str) -> list[str]:
        """The findings in a cell of clauses."""
        document = self.document(f'| Promise | Clause |\n|---|---|\n| it reads | {cell} |\n')
        return [it.what for it in check.findings_in_clauses(document)]


class Names(InATree):
    """Names of files, items and headings."""

    def test_what_is_there(self):
        self.assertEqual(self.names('`crates/reader/src/lib.rt`, `lib.rt`, `crates/{reader, reader}/src`, `specs/*.antt`, `Reader::read`,\n'
                                    '`Leaves` and `Free` of `Views.antt`, `ok` of `read`, `read` of `Reader`, `2020-01-01[a=b]`, `P1Y`, `rt check --only no_such`,\n'
                                    '[other](OTHER.md#the-second-part-too), [page](PAGE.md), [web](https://example.org)'), [])

    def test_what_is_not_there(self):
        for content, what in [
            ('`crates/reader/src/none.rt`', 'no file `crates/reader/src/none.rt`'),
            ('`python3 tools/none.py`', 'no file `tools/none.py`'),
            ('`crates/{reader, writer}/src`', 'no file `crates/{reader, writer}/src`'),
            ('`no_such_item`', 'no item `no_such_item`'),
            ('`Reader::write`', 'no item `write` in `Reader::write`'),
            ('`Leaves` and `read` of `Views.antt`', '`read` is not defined in `Views.antt`'),
            ('`ok` and `empty` of `read`', '`read` has no `empty`'),
            ('`unchanged` and `looks` of `Leaves`', '`Leaves` has no `looks`'),
            ('[a](NONE.md)', 'no file NONE.md'),
            ('[a](OTHER.md#third)', 'no heading OTHER.md#third'),
        ]:
            self.assertEqual(self.names(content), [what])

    def test_blocks_of_code_are_passed_over(self):
        self.assertEqual(self.names('```rust\nlet a = `no_such_item`;\n```\n'), [])

    def test_files_of_examples(self):
        self.assertEqual(self.names('`some.txt`\n\nThe file `some.txt` has these lines:\n\n```text\na\n```\n\n`some.txt`, `other.txt`'), ['no file `other.txt`'])

    def test_columns(self):
        self.assertEqual(self.names('| Production | From |\n|---|---|\n| YearPart | `date-fullyear`, `OfAStandard` |\n\n`YearPart`'), [])

    def test_documents_that_code_names(self):
        self.write('crates/reader/src/more.rt', '//! As `docs/OTHER.md` says.\n//! As `docs/GONE.md` says.\n')
        self.assertEqual([str(it) for it in check.findings_in_code(Tree(self.folder.name))],
                         ['crates/reader/src/more.rt:2: no file docs/GONE.md'])


class Clauses(InATree):
    """Clauses of functions, and their fields."""

    def test_what_is_there(self):
        for cell in ('`Reader::read`: `ok`, `leaves` (`empty`, `unchanged`), `callable`; `free`: *(unnamed)*', 'the check itself',
                     '`From<Wrong> for Right`: `from_gives`', '`lib::free`: *(unnamed)*'):
            self.assertEqual(self.clauses(cell), [])

    def test_what_is_not_there(self):
        for cell, what in [
            ('`Reader::read`: `err`', '`Reader::read` has no clause `err`'),
            ('`Reader::write`: `ok`', 'no function `Reader::write`'),
            ('`Reader::read`: *(unnamed)*', '`Reader::read` has no clause without a name'),
            ('`Reader::read`: `leaves` (`empty`, `looks`)', '`leaves` of `Reader::read` has no field `looks`'),
            ('`Reader::read`: `ok` (`empty`)', '`ok` of `Reader::read` has no field `empty`'),
            ('*some*: `ok`', 'no group *some*'),
        ]:
            self.assertEqual(self.clauses(cell), [what])

    def test_a_column_of_one_function(self):
        document = self.document('| Clause of `read` | What it says |\n|---|---|\n| `ok`, `err` | it reads |\n')
        self.assertEqual([it.what for it in check.findings_in_clauses(document)], ['`read` has no clause `err`'])

    def files(self, clause: str, file: str) -> list[str]:
        """The findings in a row with clauses and files."""
        document = self.document(f'| Promise | Clause | File |\n|---|---|---|\n| it reads | {clause} | {file} |\n')
        return [it.what for it in check.findings_in_files(document)]

    def test_files_of_rows(self):
        self.write('crates/reader/src/more.rt', 'pub fn last()\n    ensures some { Free }\n{}\n')
        self.write('crates/ixdtf_tests/src/tests/texts.rt', 'fn reads() {}\n')
        for clause, file in [('`Reader::read`: `ok`', '`lib.rt`'), ('`Reader::read`: `ok`; `last`: `some`', '`reader/src/lib.rt`, `more.rt`'),
                             ('`free`: *(unnamed)*', '`lib.rt`; the tests `texts.rt`'), ('the check itself', '')]:
            self.assertEqual(self.files(clause, file), [])
        of_read = 'the contract of `Reader::read` is in crates/reader/src/lib.rt, which the row does not name'
        for clause, file, what in [
            ('`Reader::read`: `ok`', '`more.rt`', [of_read, '`more.rt` has no contract that the row names']),
            ('`Reader::read`: `ok`', 'the same', [of_read]),
            ('`Reader::read`: `ok`; `last`: `some`', '`more.rt`', [of_read]),
            ('`Reader::read`: `leaves` (`empty`)', '`lib.rt`, `more.rt`', ['`more.rt` has no contract that the row names']),
            ('it is one function', '`lib.rt`', ['`lib.rt` has no contract that the row names']),
        ]:
            self.assertEqual(self.files(clause, file), what)

    def test_files_to_read(self):
        self.write('crates/reader/src/more.rt', 'pub fn last()\n    ensures some { Free }\n{}\n')
        table = '| Promise | Clause |\n|---|---|\n| it reads | `Reader::read`: `ok` |\n\n'
        for line, what in [
            ('Then read the contracts: `lib.rt` of `crates/reader`.', []),
            ('Then read the contracts: `lib.rt` and `more.rt`.', ['`more.rt` has no contract that the tables name']),
            ('Then read the contracts.', ['crates/reader/src/lib.rt has contracts that the tables name, but is not one of the files to read']),
        ]:
            document = self.document(table + line)
            self.assertEqual([it.what for it in check.findings_in_contracts_to_read(document)], what)

    def test_each_reader_of_a_group(self):
        self.assertEqual(len(check.members('each reader')), 30)
        self.assertEqual(check.members('part located')[-1], 'IsoDurationParser::parse_located')
        self.assertEqual(len(self.clauses("*handler located*: `handled`")), 5)


class Tables(InATree):
    """Rows of tables, with and without bars at their ends."""

    def test_rows(self):
        rows = [{'A': 'x', 'B': '', 'C': 'z'}]
        self.assertEqual([row for _, row in self.document('| A | B | C |\n|---|---|---|\n| x | | z |\n').tables()], rows)
        self.assertEqual([row for _, row in self.document('text\n\nA | B | C\n---|---|---\nx | | z\n\nno row').tables()], rows)

    def test_bars(self):
        self.assertEqual(list(check.findings_in_layout(self.document('| A | B |\n|---|---|\n| x | y |\n\na | b\n'))), [])
        for content, lines in [('A | B\n---|---\nx | y\n', [1, 2, 3]), ('| A | B |\n|---|---|\nx | y |\n| x | y\n', [3, 4])]:
            self.assertEqual([it.line for it in check.findings_in_layout(self.document(content))], lines)

    def test_a_row_that_lacks_cells(self):
        self.assertEqual([row for _, row in self.document('A | B\n---|---\ny |\n').tables()], [{'A': 'y', 'B': ''}])


MESSAGE = '''/// A function before.
fn before(reason: Reason) -> Wording {
    match reason {
        Reason::Other => Wording::Fixed("not this `match`"),
    }
}

/// Returns the words of the message of a reason.
fn wording_of(reason: Reason, place: Context) -> Wording
    ensures { words_of result ≡ wording reason place }
{
    match reason {
        // a comment, with => and "a quote
        Reason::Start => expected(
            place,
            "the text is empty; expected `{`, or `}`",
            "expected `=>`, found ",
        ),
        Reason::Hour | Reason::OffsetHour
        | Reason::ZoneHour => Wording::AroundPart("the hour is ", ", and has to be 00 to 23"),
        Reason::Day => Wording::AroundPart(
            "the day is ",
            to_day(place.last_day()),
        ),
        Reason::Front => { Wording::AroundPart("`", "` is not a time") }
        Reason::After if place.is_next(b':') => Wording::Fixed("found `:`"),
        Reason::After | Reason::Behind
            if place.has_seconds() && place.is_in_bracket() => Wording::Found(
            "expected `]`, found ",
        ),
        Reason::After | Reason::Behind if place.is_in_bracket() => expected(place, "the text ends", "expected `]`, found "),
        Reason::After | Reason::Behind => Wording::Found("expected the end, found "),
        Reason::Unit => Wording::AroundUnit("the unit ", " stands too late")
    }
}

fn to_day(last_day: u8) -> &'static str {
    match last_day {
        28 => ", and has to be 01 to 28",
        _ => ", and has to be 01 to 31",
    }
}
'''
PART = '''fn extent_of(reason: Reason) -> Extent {
    match reason {
        Reason::Front => {
            Extent::Front
        }
        _ => Extent::Byte,
    }
}
'''
MESSAGES = '''| Reason | At the end of the text | At another character |
|---|---|---|
| `Start` | the text is empty; expected `{`, or `}` | expected `=>`, found {char} |
| `Hour` | *Whatever follows:* the hour is {number}, and has to be 00 to 23 | |
| `OffsetHour` | *Whatever follows:* the hour is {number}, and has to be 00 to 23 | |
| `ZoneHour` | *Whatever follows:* the hour is {number}, and has to be 00 to 23 | |
| `Day` | *Whatever follows:* the day is {number}, and has to be 01 to {last} | |
| `Front` | *Whatever follows:* `{front}` is not a time | |
| `After` | *In a bracket:* the text ends *Otherwise:* ok | *At `:`:* found `:` \
*In a bracket, at `:` or a digit:* expected `]`, found {char} \
*In a bracket:* expected `]`, found {char} *Otherwise:* expected the end, found {char} |
| `Behind` | *In a bracket:* the text ends *Otherwise:* ok | *In a bracket, at `:` or a digit:* expected `]`, found {char} \
*In a bracket:* expected `]`, found {char} *Otherwise:* expected the end, found {char} |
| `Unit` | *Whatever follows:* the unit {char} stands too late | |
'''


class Messages(InATree):
    """The messages of reasons."""

    def setUp(self):
        super().setUp()
        self.write_code(MESSAGE)
        self.write(check.EXPLANATIONS + 'part.rt', PART)

    def write_code(self, message: str, reasons: str = 'Start, Hour, OffsetHour, ZoneHour, Day, Front, After, Behind, Unit'):
        """Writes the code of the messages, and the reasons."""
        self.write(check.EXPLANATIONS + 'wording.rt', message)
        self.write(check.GRAMMAR + 'reason.rt', 'pub enum Reason {\n' + ''.join(f'    {it},\n' for it in reasons.split(', ')) + '}\n')

    def found(self, old: str = '', new: str = '') -> list[str]:
        """The findings after a change of the page."""
        self.assertIn(old, MESSAGES)
        return [str(it).removeprefix('docs/PAGE.md:') for it in check.findings_in_messages(self.document(MESSAGES.replace(old, new)))]

    def found_in_code(self, old: str, new: str) -> list[str]:
        """The findings after a change of the code."""
        self.assertEqual(MESSAGE.count(old), 1, old)
        self.write_code(MESSAGE.replace(old, new))
        return self.found()

    def test_arms(self):
        arms = check.arms_of(MESSAGE, 'wording_of')
        self.assertEqual([(it.reasons(), it.guard) for it in arms[1:6]],
                         [(['Hour', 'OffsetHour', 'ZoneHour'], ''), (['Day'], ''), (['Front'], ''), (['After'], "place.is_next(b':')"),
                          (['After', 'Behind'], 'place.has_seconds() && place.is_in_bracket()')])
        self.assertEqual((len(arms), arms[-1].body), (9, 'Wording::AroundUnit("the unit ", " stands too late")'))
        self.assertEqual([it.pattern for it in check.arms_of(MESSAGE, 'to_day')], ['28', '_'])

    def test_a_right_page(self):
        self.assertEqual(self.found(), [])

    def test_rows(self):
        row = '| `Unit` | *Whatever follows:* the unit {char} stands too late | |\n'
        self.assertEqual(self.found(row, ''), ['1: no row for the reason Unit'])
        self.assertEqual(self.found(row, row + row), ['1: several rows for the reason Unit'])
        self.assertEqual(self.found('`Unit`', '`Units`'), ['1: no row for the reason Unit', '1: no reason Units'])

    def test_another_text(self):
        self.assertEqual(self.found('found `:` ', 'found `;` '),
                         ['9: After, at another character: the code also has "*At `:`:* found `:`"',
                          '9: After, at another character: the code does not have "*At `:`:* found `;`"'])
        self.assertEqual(len(self.found('{number}, and has to be 00', '{char}, and has to be 00')), 6)
        self.assertEqual(len(self.found('{last}', '31')), 2)
        self.assertEqual(len(self.found('{front}', '{number}')), 2)

    def test_a_text_in_the_wrong_row(self):
        self.assertEqual(self.found(' `{front}` is not a time |', ' `{front}` is not a time *At `:`:* found `:` |'),
                         ['8: Front, at the end of the text: the code does not have "*At `:`:* found `:`"'])
        self.assertEqual(self.found('`Front`', '`Start`')[:2], ['1: no row for the reason Front', '1: several rows for the reason Start'])

    def test_cells(self):
        self.assertEqual(self.found('| *At `:`:* found `:` ', '| '),
                         ['9: After, at another character: the code also has "*At `:`:* found `:`"'])
        self.assertEqual(len(self.found('*Whatever follows:* the day', 'the day')), 2)
        self.assertEqual(len(self.found('01 to {last} | |', '01 to {last} | ok |')), 1)
        self.assertEqual(self.found('*In a bracket:* the text ends *Otherwise:* ok | *At `:`',
                                    '*Otherwise:* ok *In a bracket:* the text ends | *At `:`'),
                         ['9: After, at the end of the text: the code has another order'])
        self.assertEqual(self.found('| *At `:`:* found `:` ', '| *At `:`:* found `:` *At `:`:* found `:` '),
                         ['9: After, at another character: a message is there twice'])

    def test_changed_code(self):
        self.assertEqual(len(self.found_in_code('"the unit "', '"a unit "')), 2)
        self.assertEqual(len(self.found_in_code('Reason::Hour | ', '')), 1)
        self.assertEqual(len(self.found_in_code('b\':\') => Wording::Fixed("found `:`")', 'b\'-\') => Wording::Fixed("found `:`")')), 2)

    def test_code_that_cannot_be_read(self):
        for old, new, why in [
            ("place.is_next(b':')", 'place.is_new()', "'place.is_new()'"),
            ('Wording::Fixed("found `:`")', 'found()', 'an arm of `wording_of` has another form: Reason::After => found()'),
            ('Reason::Unit', '_', 'an arm of `wording_of` has another form: _ => Wording::AroundUnit("the unit ", " stands too late")'),
            ('        Reason::After | Reason::Behind => ', '        Reason::Behind => ',
             'the last arm of After has a guard, or another arm has none'),
            ('01 to 28', '00 to 28', '`to_day` has different words: , and has to be 00 to; , and has to be 01 to'),
            ('fn wording_of', 'fn words_of', 'no `match` in `wording_of`'),
        ]:
            self.assertEqual(self.found_in_code(old, new), [f'1: the messages of the code cannot be read: {why}'])


class Repository(unittest.TestCase):
    """The documents of this repository, and the findings after one of them is changed."""

    TREE = Tree(check.ROOT)

    def found(self, path: str, old: str, new: str, finder) -> list[str]:
        """The findings in a document after this change."""
        document = Document(self.TREE, path)
        self.assertEqual(document.text.count(old), 1, old)
        document.text = document.text.replace(old, new)
        document.lines = list(document.outside_of_code())
        return [it.what for it in finder(document)]

    def faults(self, old: str, new: str) -> list[str]:
        """The findings in a changed fault table."""
        return self.found('docs/FAULTS.md', old, new, check.findings_in_faults)

    def test_nothing_is_found(self):
        self.assertEqual(list(check.findings(self.TREE)), [])

    def test_there_are_examples(self):
        rows = [row for _, row in Document(self.TREE, 'docs/FAULTS.md').tables()]
        self.assertGreater(sum(len(list(check.said_in(row))) for row in rows), 100)

    def test_another_place(self):
        self.assertEqual(self.faults('`20-06-05` at 2', '`20-06-05` at 3')[0], 'tests/refused.tsv has no Invalid chracter while parsing year '
                         'value. at 3 for `20-06-05`')
        self.assertTrue(self.faults('`[!c=d]junk` | `UnrecognizedCritical` at 16', '`[!c=d]junk` | `UnrecognizedCritical` at 15'))

    def test_hints(self):
        def found(old: str, new: str) -> list[str]:
            return self.found('docs/FAULTS.md', old, new, check.findings_in_hints)
        self.assertEqual(found('| write `Z` for UTC |', '| write `Z` for UCT |'),
                         ['no row for the hint "write `Z` for UTC"', 'the code does not have the hint "write `Z` for UCT"',
                          'the model does not have this hint for `parse 2024-03-02 08:48 UTC`'])
        self.assertEqual(found('`duration P-1D`', '`duration PX1D`'), ['the model does not have this hint for `duration PX1D`'])
        self.assertEqual(found('`rfc3339 +012024-03-02T08:48:00Z`', '`parse 2024-03-02`'),
                         ['the model does not have this hint for `parse 2024-03-02`'])
        self.assertEqual(found('| `DateUnitOrder` | `M` is', '| `DateUnits` | `M` is'), ['no reason DateUnits'])
        self.assertEqual(len(found('write the day as `0{digit}`', 'write the day as `0{char}`')), 2)

    def test_hints_in_code(self):
        """All strings of the code from which hints are made are found."""
        texts = [self.TREE.read(it) for it in check.files_of_hints(self.TREE)]
        code = ''.join(it.partition('impl Hint {')[2] or it for it in texts)
        strings = {it for it in re.findall(r'"((?:[^"\\]|\\.)*)"', code) if it != '`'}
        found = check.hints_in_code(self.TREE)
        self.assertEqual({it.partition('{')[0] for it in found}, {it.partition('{')[0] for it in strings})
        self.assertGreater(len(found), 40)

    def test_another_error(self):
        self.assertTrue(self.faults('`UTC]`: `InvalidEnd` at 3', '`UTC]`: `IanaChar` at 3'))
        self.assertIn('the model has other cells for the line after_date',
                      self.faults('`T`, `t`, space, `[` | ok', '`T`, `t`, `[` | ok'))

    def test_another_text(self):
        self.assertTrue(self.faults('`+10000001108` at 11', '`+10000001109` at 11'))

    def test_an_example_that_cannot_be_read(self):
        self.assertIn('cannot be read: expected a text and its position, found: `20-06-05`', self.faults('`20-06-05` at 2', '`20-06-05`'))
        self.assertIn("cannot be read: 'any sign'", self.faults('nothing | digit, sign |', 'nothing | digit, any sign |'))

    def test_the_table_of_errors(self):
        self.assertIn('OffsetNeedsSign has a different text in the code or in the model', self.faults('UTC offset needs a sign |', 'UTC offset needs a sign. |'))
        self.assertIn('in the model, OffsetNeedsSign is returned by parse_offset, parse_rfc3339, parse_rfc9557',
                      self.faults('UTC offset needs a sign | `parse_rfc3339`, `parse_rfc9557`, `parse_offset`', 'UTC offset needs a sign | `parse_time`'))

    def test_messages(self):
        self.assertEqual(list(check.findings_in_messages(Document(self.TREE, 'docs/FAULTS.md'))), [])
        row = "| `OffsetStart` | the text is empty; expected an offset | expected `+` or `-` before the offset's hour, found {char} |\n"
        for old, new, what in [
            (row, '', ['no row for the reason OffsetStart']),
            (row, row + row, ['several rows for the reason OffsetStart']),
            (row, row.replace('an offset', 'an hour'),
             ['OffsetStart, at the end of the text: the code also has "the text is empty; expected an offset"',
              'OffsetStart, at the end of the text: the code does not have "the text is empty; expected an hour"']),
            ('| `AfterZulu` | ok | ', '| `AfterZulu` | the text is empty; expected an offset | ',
             ['AfterZulu, at the end of the text: the code also has "ok"',
              'AfterZulu, at the end of the text: the code does not have "the text is empty; expected an offset"']),
        ]:
            self.assertEqual(self.found('docs/FAULTS.md', old, new, check.findings_in_messages), what)

    def test_counts(self):
        self.assertEqual(self.found('docs/FAULTS.md', '46 variants', '45 variants', check.findings_in_counts),
                         ['"45 variants": there are 46'])
        self.assertEqual(len(self.found('docs/TRUST.md', 'of the list have ', 'of the list have 1', check.findings_in_counts)), 1)

    def test_the_order_of_reading(self):
        self.assertEqual(self.found('docs/TRUST.md', '3. `Handlers`, ', '3. ', check.findings_in_reading_order),
                         ['crates/ixdtf_grammar/specs/Handlers.antt is missing in the order of reading'])

    def test_files_that_have_no_contract(self):
        self.assertEqual(self.found('docs/TRUST.md', 'returns. | `handled.rt` |', 'returns. | `parsers.rt` |', check.findings_in_files),
                         ['the contract of `IxdtfParser::parse_month_day_with_annotation_handler` is in crates/ixdtf/src/parsers/handled.rt, '
                          'which the row does not name', '`parsers.rt` has no contract that the row names'])
        self.assertEqual(self.found('docs/TRUST.md', '`constructors.rt`, `unhandled.rt`, ', '`constructors.rt`, ', check.findings_in_reading_order),
                         ['crates/ixdtf/src/parsers/unhandled.rt has contracts that the tables name, but is not one of the files to read'])

    def test_snippets(self):
        for path in check.WITH_SNIPPETS:
            self.assertEqual(list(check.findings_in_snippets(Document(self.TREE, path))), [])
        self.assertEqual(self.found('docs/CALLING.md', 'let Ok(record) = parser.parse() else', 'let Ok(record) = parser.read() else',
                                    check.findings_in_snippets), ['no test and no example has the code of this block'])
        self.assertEqual(self.found('docs/CALLING.md', 'use ixdtf::{LocatedError, ParserResult};', 'use ixdtf::{PlacedError, ParserResult};',
                                    check.findings_in_snippets), ['no test and no example imports ixdtf::PlacedError'])
        self.assertEqual(check.imported('use a::{self, b as c};\nuse d::e;\n'), {'a', 'a::b as c', 'd::e'})

    def test_errors_that_a_row_implies(self):
        row = {'Goes on with': 'digit', 'End': '`digit`', 'Other': '`DateSeparator` at `-`, else `DateDay`'}
        self.assertEqual(check.implied_error(row, '2020', 4), Error('AbruptEnd', 'digit'))
        self.assertEqual(check.implied_error(row, '2020-', 4), Error('DateSeparator'))
        self.assertEqual(check.implied_error(row, '2020x', 4), Error('DateDay'))


if __name__ == '__main__':
    unittest.main()
