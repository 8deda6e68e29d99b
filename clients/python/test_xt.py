"""Tests of the client.

    python3 -m unittest

in this folder. Those of sessions need the proved program and are skipped where it is not built; the environment
variable XT may name another one.
"""
import doctest
import io
import os
import random
import subprocess
import sys
import tempfile
import unittest
from pathlib import Path
from unittest import mock
from xml.etree import ElementTree

import xt

EXAMPLES = xt.TOP / 'examples'


class Folder(unittest.TestCase):
    """Tests with files in a folder of their own."""

    def setUp(self):
        folder = tempfile.TemporaryDirectory()
        self.addCleanup(folder.cleanup)
        self.folder = Path(folder.name)

    def file(self, name, text):
        path = self.folder / name
        path.parent.mkdir(exist_ok=True)
        path.write_bytes(text if isinstance(text, bytes) else text.encode())
        return path


class ToLines(Folder):
    def check(self, given, *lines):
        self.assertEqual(xt.lines_of(given), list(lines))

    def refused(self, given, said, **more):
        with self.assertRaises(xt.NotXml) as caught:
            xt.lines_of(given, **more)
        self.assertIn(said, str(caught.exception))
        return caught.exception

    def test_elements(self):
        self.check('<a><b/><b></b></a>', '(a', '(b', ')b', '(b', ')b', ')a')

    def test_attributes_keep_their_order(self):
        self.check('<a z="1" xmlns:p="u" b="2" p:a="3" xmlns="v"/>',
                   '(a', 'Az 1', 'Axmlns:p u', 'Ab 2', 'Ap:a 3', 'Axmlns v', ')a')

    def test_an_empty_value_keeps_its_space(self):
        self.check('<a b=""/>', '(a', 'Ab ', ')a')

    def test_the_four_escapes(self):
        self.check('<a b="&#10;&#9;&#13;\\">\n\t&#13;\\n</a>', '(a', r'Ab \n\t\r\\', r'-\n\t\r\\n', ')a')

    def test_line_ends(self):
        self.check(b'<a b="x\r\ny\rz\tw">x\r\ny\rz</a>', '(a', 'Ab x y z w', r'-x\ny\nz', ')a')

    def test_one_text_is_one_line(self):
        self.check('<!DOCTYPE a [<!ENTITY e "E">]><a>a<![CDATA[<b>&]]>&#233;&amp;&e;\nc</a>',
                   '(a', r'-a<b>&é&E\nc', ')a')

    def test_a_long_text_is_one_line(self):
        self.check(f'<a>{"x" * 100000}</a>', '(a', '-' + 'x' * 100000, ')a')

    def test_comments_and_instructions(self):
        self.check('<!-- c\n--><?p  q r ?><a><?p?><!----></a><!--d-->',
                   r'C c\n', '?p q r ', '(a', '?p', 'C', ')a', 'Cd')

    def test_a_document_type_goes(self):
        self.check('<?xml version="1.0"?><!DOCTYPE a [<!-- c --><?p q?><!NOTATION n SYSTEM "n">]><a/>', '(a', ')a')

    def test_attributes_of_a_document_type(self):
        self.check('<!DOCTYPE a [<!ATTLIST a b CDATA "1" c NMTOKENS #IMPLIED>]><a c=" x  y "/>',
                   '(a', 'Ac x y', 'Ab 1', ')a')

    def test_entities_with_markup(self):
        self.check('<!DOCTYPE a [<!ENTITY f "<b>&#38;amp;</b>"><!ENTITY e "x&f;y">]><a>&e;</a>',
                   '(a', '-x', '(b', '-&', ')b', '-y', ')a')

    def test_parameter_entities_of_the_subset(self):
        self.check('<!DOCTYPE a [<!ENTITY % p "<!ENTITY e \'E\'>">%p;]><a b="&e;">&e;</a>', '(a', 'Ab E', '-E', ')a')

    def test_names_are_as_written(self):
        self.check('<p:a q:b="1"/>', '(p:a', 'Aq:b 1', ')p:a')

    def test_encodings(self):
        for encoding in ('utf-8', 'iso-8859-1', 'windows-1252', 'utf-16', 'euc-jp'):
            text = '<a>é</a>' if encoding != 'euc-jp' else '<a>日本</a>'
            data = f'<?xml version="1.0" encoding="{encoding}"?>{text}'.encode(encoding)
            self.check(data, '(a', '-' + text[3:-4], ')a')
        self.check(b'\xef\xbb\xbf<a>\xc3\xa9</a>', '(a', '-é', ')a')
        self.check('<?xml version="1.0" encoding="utf-16"?><a>é</a>', '(a', '-é', ')a')

    def test_a_wrong_encoding(self):
        self.assertEqual(self.refused(b'<a>\n\xff</a>', 'utf-8').line, 2)
        self.refused(b'<?xml version="1.0" encoding="none-such"?><a/>', 'none-such')

    def test_faults_of_xml(self):
        for text in ('', '<a>', '<a></b>', '<a b="1" b="2"/>', '<a/><b/>', '<a>\x01</a>', '<a>&#1;</a>', 'text'):
            self.refused(text, 'line 1')
        self.refused('<a>\ud800</a>', 'surrogate')

    def test_a_fault_has_a_line(self):
        error = self.refused('<a>\n</b>', 'line 2: mismatched tag')
        self.assertEqual((error.line, error.file, error.code), (2, None, None))

    def test_entities_that_are_not_declared(self):
        self.refused('<a>&e;</a>', 'entity')
        self.refused('<a b="&e;"/>', 'entity')
        for kind in ('SYSTEM "none.dtd"', '[<!ENTITY % p SYSTEM "none"> %p;]'):
            self.refused(f'<!DOCTYPE a {kind}><a>&e;</a>', 'the entity e is not declared')
            self.refused(f'<!DOCTYPE a {kind}><a b="&e;"/>', 'the entity e is not declared')
            self.refused(f'<!DOCTYPE a {kind}><a>\n<b c="1" d=\'>&e;\'>x</b></a>', 'the entity e is not declared')
            self.check(f'<!DOCTYPE a {kind}><a b="&lt;&#38;e;"><!-- <a b="&e;"> --></a>',
                       '(a', 'Ab <&e;', 'C <a b="&e;"> ', ')a')

    def test_entities_without_end(self):
        self.refused('<!DOCTYPE a [<!ENTITY e "&f;"><!ENTITY f "&e;">]><a>&e;</a>', 'recursive')

    def test_other_files_are_read_where_that_is_asked(self):
        self.file('parts/part.ent', '<b/>&f;')
        self.file('type.dtd', '<!ENTITY f "F"><!ATTLIST a c CDATA "C">')
        kind = '<!DOCTYPE a SYSTEM "type.dtd" [<!ENTITY e SYSTEM "parts/part.ent">]>'
        file = self.file('a.xml', kind + '<a d="&f;">&e;</a>')
        self.assertEqual(xt.lines_of(file, external=True), ['(a', 'Ad F', 'Ac C', '(b', ')b', '-F', ')a'])
        self.refused(file, 'which is not read')

    def test_texts_around_and_in_another_file(self):
        self.file('part.ent', 'm<b/>n')
        file = self.file('a.xml', '<!DOCTYPE a [<!ENTITY e SYSTEM "part.ent">]><a>x&e;y</a>')
        self.assertEqual(xt.lines_of(file, external=True), ['(a', '-xm', '(b', ')b', '-ny', ')a'])

    def test_default_values_of_another_file(self):
        self.file('type.dtd', '<!ATTLIST a b CDATA "&e;">')
        file = self.file('a.xml', '<!DOCTYPE a SYSTEM "type.dtd"><a/>')
        self.refused(file, 'entity', external=True)

    def test_other_files_are_not_read_by_default(self):
        self.file('part.ent', 'secret')
        file = self.file('a.xml', '<!DOCTYPE a [<!ENTITY e SYSTEM "part.ent">]>\n<a>&e;</a>')
        self.assertEqual(self.refused(file, 'part.ent, which is not read').line, 2)

    def test_nothing_is_read_from_the_net(self):
        given = '<!DOCTYPE a [<!ENTITY e SYSTEM "http://localhost/e">]><a>&e;</a>'
        self.refused(given, 'which is not read', external=True)

    def test_a_fault_in_another_file(self):
        part = self.file('part.ent', '\n<b>')
        file = self.file('a.xml', '<!DOCTYPE a [<!ENTITY e SYSTEM "part.ent">]><a>&e;</a>')
        error = self.refused(file, 'line 2', external=True)
        self.assertEqual((error.file, error.line), (str(part), 2))

    def test_a_file_that_is_not_there(self):
        self.assertEqual(self.refused(Path('none.xml'), 'none.xml: No such file').file, 'none.xml')

    def test_lines_stay(self):
        self.check(['(a', ')a'], '(a', ')a')

    def test_nodes(self):
        self.assertEqual(xt.lines_of_nodes('x<p:b/><!--c-->y'), ['-x', '(p:b', ')p:b', 'Cc', '-y'])
        self.assertEqual(xt.lines_of_nodes(''), [])
        self.assertEqual(xt.lines_of_nodes(['-x']), ['-x'])
        for text in ('</nodes><nodes>', 'a</nodes>', '<b>', '<?xml version="1.0"?><a/>'):
            with self.assertRaises(xt.NotXml):
                xt.lines_of_nodes(text)


class ToXml(unittest.TestCase):
    def check(self, lines, xml):
        self.assertEqual(xt.xml_of(lines), xml)

    def test_elements(self):
        self.check(['(a', 'Ab 1', '(c', ')c', '-x', '(d', '-y', ')d', ')a'], '<a b="1"><c/>x<d>y</d></a>')

    def test_what_a_reader_would_change_is_a_reference(self):
        self.check(['(a', r'Ab <>&"\'\n\t\r', r'-<>&"\n\t\r]]>', ')a'],
                   '<a b="&lt;&gt;&amp;&quot;\\\'&#10;&#9;&#13;">&lt;&gt;&amp;"\n\t&#13;]]&gt;</a>')

    def test_several_nodes(self):
        self.check(['-x', '(a', ')a', '(b', ')b', 'Cc', '?p', r'?q r\\'], 'x<a/><b/><!--c--><?p?><?q r\\?>')
        self.check([], '')
        self.check(['', '(a', '', ')a'], '<a/>')

    def test_values(self):
        self.check(['(a', 'Ab', 'Ac ', 'Ad  x ', ')a'], '<a b="" c="" d=" x "/>')

    def test_other_backslashes(self):
        self.check([r'-\q\\n\\'], '\\q\\n\\')

    def test_what_xml_cannot_write(self):
        for line in ('Ca--b', 'Ca-', '?p a?>b', 'Nn', '&e'):
            with self.assertRaises(xt.NotXml):
                xt.xml_of([line])

    def test_files_come_out_as_they_came_in(self):
        for file in (EXAMPLES / 'books.xsl', EXAMPLES / 'build' / 'text.xsl'):
            text = file.read_text(encoding='utf-8').split('?>\n')[-1].rstrip('\n')
            self.assertEqual(xt.xml_of(xt.lines_of(file)).split('-->')[-1], text.split('-->\n')[-1])

    def test_lines_come_back(self):
        chance = random.Random(1)
        for _ in range(300):
            lines = ['(r', *nodes_by_chance(chance, 4), ')r']
            self.assertEqual(xt.lines_of(xt.xml_of(lines)), lines)


CHARACTERS = ['a', 'é', '<', '>', '&', '"', "'", r'\n', r'\t', r'\r', r'\\', ']', ' ', '\U0001F600']


def text_by_chance(chance):
    return ''.join(chance.choices(CHARACTERS, k=chance.randint(1, 6)))


def nodes_by_chance(chance, depth):
    """The lines of some nodes, without two texts side by side."""
    lines = []
    for _ in range(chance.randint(0, 4)):
        kind = chance.choice('((-?C')
        if kind == '(' and depth:
            names = chance.sample(['b', 'a', 'xmlns:p', 'p:c', 'xml:d'], chance.randint(0, 3))
            lines += ['(e', *(f'A{name} {text_by_chance(chance)}' for name in names)]
            lines += [*nodes_by_chance(chance, depth - 1), ')e']
        elif kind == '-' and (not lines or lines[-1][0] != '-'):
            lines.append('-' + text_by_chance(chance))
        elif kind == '?':
            lines.append(chance.choice(['?p', '?p x y']))
        elif kind == 'C':
            lines.append(chance.choice(['C', r'C x\n']))
    return lines


class ToTree(unittest.TestCase):
    def test_a_tree(self):
        lines = xt.lines_of('<a xmlns="u" xmlns:p="v" p:b="1" c="2">x<b xmlns="">y</b>z<p:d/><!--c--><?q r?>w</a>')
        top = xt.tree_of(lines)
        a = top[0]
        self.assertEqual((a.tag, a.attrib, a.text), ('{u}a', {'{v}b': '1', 'c': '2'}, 'x'))
        self.assertEqual([child.tag for child in a[:2]], ['b', '{v}d'])
        self.assertEqual((a[0].text, a[0].tail, a[3].text, a[3].tail), ('y', 'z', 'q r', 'w'))

    def test_it_is_as_elementtree_reads_it(self):
        chance = random.Random(2)
        for _ in range(200):
            lines = ['(r', 'Axmlns u', 'Axmlns:p v', *nodes_by_chance(chance, 3), ')r']
            text = xt.xml_of(lines)
            builder = ElementTree.TreeBuilder(insert_comments=True, insert_pis=True)
            known = ElementTree.fromstring(text, ElementTree.XMLParser(target=builder))
            self.assertEqual(ElementTree.tostring(xt.tree_of(lines)[0]), ElementTree.tostring(known))

    def test_a_result_that_is_no_document(self):
        top = xt.tree_of(['-x', '(a', ')a', '-y'])
        self.assertEqual((top.text, top[0].tag, top[0].tail), ('x', 'a', 'y'))
        self.assertEqual(ElementTree.tostring(top), b'x<a />y')


class Places(unittest.TestCase):
    LINES = ['Cc', '(l', '(i', ')i', '-t', '-', '-u',
             '(x:i', 'Aa 1', '?p q', '(i', ')i', 'Cd', '(i', '-v', ')i', ')x:i', ')l']

    def check(self, path, where, element):
        self.assertEqual(xt.find(self.LINES, path), (where, element))

    def test_nodes(self):
        self.check('/', '/', None)
        self.check('/1', '/comment()[1]', None)
        self.check('/2', '/l[1]', 1)
        self.check('/2/1', '/l[1]/i[1]', 2)
        self.check('/2/2', '/l[1]/text()[1]', 1)
        self.check('/2/3', '/l[1]/x:i[1]', 7)
        self.check('/2/3/1', '/l[1]/x:i[1]/processing-instruction()[1]', 7)
        self.check('/2/3/3', '/l[1]/x:i[1]/comment()[1]', 7)
        self.check('/2/3/4', '/l[1]/x:i[1]/i[2]', 13)
        self.check('/2/3/4/1', '/l[1]/x:i[1]/i[2]/text()[1]', 13)

    def test_no_nodes(self):
        for path in ('/3', '/2/4', '/2/1/1', '/1/1', '/2/3/4/2'):
            self.assertIsNone(xt.find(self.LINES, path))

    def test_the_module_of_a_place(self):
        self.assertEqual(xt.module_and_path('main/1/2', {'main': None}), ('main', '/1/2'))
        self.assertEqual(xt.module_and_path('a/b/1', {'a/b': None, 'main': None}), ('a/b', '/1'))
        self.assertEqual(xt.module_and_path('a/1/2', {'a/1': None, 'a': None}), ('a', '/1/2'))
        self.assertEqual(xt.module_and_path('-', {'main': None}), (None, None))

    def test_a_refusal(self):
        document = xt.document_of('<s>\n<t>\n<!--c-->x</t></s>')
        error = xt.refused('S09', 'main/1/2/3', 'main', '/1/2/3', document)
        self.assertEqual((error.code, error.number, error.line, error.where), ('S09', 9, 2, '/s[1]/t[1]/text()[2]'))
        self.assertEqual((error.place, error.module, error.path), ('main/1/2/3', 'main', '/1/2/3'))
        self.assertEqual(str(error), 'main: line 2: /s[1]/t[1]/text()[2]: S09: ' + xt.MEANINGS['S09'])
        self.assertEqual(str(xt.refused('S02', '-')), '-: S02: there is no source')


class Modules(Folder):
    SHEET = '<x:stylesheet version="1.0" xmlns:x="http://www.w3.org/1999/XSL/Transform">{}</x:stylesheet>'

    def sheet(self, name, *parts):
        return self.file(name, self.SHEET.format(''.join(parts)))

    def names(self, file):
        return [module.name for module in xt.modules_of(file)]

    def test_hrefs(self):
        lines = xt.lines_of(self.SHEET.format('<x:import href="a"/><import href="b"/><y:include xmlns:y="{}" href="c"/>'
                                              '<x:template><x:include href="d"/></x:template>'.format(xt.XSLT)))
        self.assertEqual(xt.hrefs_of(lines), ['a', 'c'])

    def test_modules(self):
        self.sheet('lib/a.xsl', '<x:include href="b.xsl"/>')
        self.sheet('lib/b.xsl', '<x:include href="../main.xsl"/>')
        hrefs = ('lib/a.xsl', 'none.xsl', 'lib/a.xsl')
        main = self.sheet('main.xsl', *(f'<x:import href="{href}"/>' for href in hrefs))
        self.assertEqual(self.names(main), ['main', 'lib/a.xsl', 'b.xsl', '../main.xsl'])
        self.assertEqual(xt.modules_of(main)[1].document.file, str(self.folder / 'lib/a.xsl'))

    def test_an_href_of_two_files(self):
        self.sheet('b.xsl')
        self.sheet('lib/a.xsl', '<x:include href="b.xsl"/>')
        self.sheet('lib/b.xsl')
        main = self.sheet('main.xsl', '<x:import href="lib/a.xsl"/><x:import href="b.xsl"/>')
        with self.assertRaises(xt.BadHref):
            xt.modules_of(main)

    def test_hrefs_that_are_no_names(self):
        for name in ('source', 'main', 'a b'):
            self.file(name, '<a/>')
            with self.assertRaises(xt.BadHref):
                xt.modules_of(self.sheet('m.xsl', f'<x:import href="{name}"/>'))


class Replies(unittest.TestCase):
    def read(self, data):
        stream = io.BytesIO(data + b'ok done\n')
        reply = xt.read_reply(stream)
        self.assertEqual(reply.raw, data)
        self.assertEqual(xt.read_reply(stream).line, 'ok done')
        return reply

    def test_one_line(self):
        for line in ('ok done', 'ok refused S10 main/1/2', 'no 6', 'refused S02 -', 'ran 3 asked 12 did 7'):
            self.assertEqual(self.read(line.encode() + b'\n')[1:], (line, None, None))

    def test_lines(self):
        self.assertEqual(self.read(b'.\n').lines, [])
        self.assertEqual(self.read('(a\n-é\r\n)a\n.\n'.encode()).lines, ['(a', '-é\r', ')a'])

    def test_texts(self):
        self.assertEqual(self.read(b'text 0\n\n').text, '')
        self.assertEqual(self.read('text 8\né\n.\nok\n\n'.encode()).text, 'é\n.\nok\n')

    def test_an_end_too_early(self):
        for data in (b'', b'ok', b'(a\n', b'(a\n.', b'text 3\nab\n'):
            with self.assertRaises(EOFError):
                xt.read_reply(io.BytesIO(data))


class Commands(unittest.TestCase):
    def test_bytes(self):
        self.assertEqual(xt.command_bytes('show'), b'show\n')
        self.assertEqual(xt.command_bytes('source', ['(a', '-é', ')a']), 'source\n(a\n-é\n)a\n.\n'.encode())
        self.assertEqual(xt.command_bytes('insert source /1', []), b'insert source /1\n.\n')
        self.assertEqual(xt.command_bytes('param a \udcff'), b'param a \xff\n')

    def test_what_would_be_another_command(self):
        for line in ('', '\r', 'quit', 'quit\r', 'show\nshow', 'source', 'source\r', 'module main', 'insert source /1'):
            with self.assertRaises(ValueError):
                xt.command_bytes(line)
        for body in (['.'], ['.\r'], ['(a\n)a']):
            with self.assertRaises(ValueError):
                xt.command_bytes('source', body)
        with self.assertRaises(ValueError):
            xt.command_bytes('show', [])

    def test_words(self):
        self.assertEqual((xt.path_word('/1/2'), xt.path_word((1, 2)), xt.path_word(())), ('/1/2', '/1/2', '/'))
        for text in ('', 'a b', 'a\nb'):
            with self.assertRaises(ValueError):
                xt.word(text)


class Codes(unittest.TestCase):
    def test_the_meanings_are_those_of_the_examples(self):
        file = EXAMPLES / 'lib' / 'codes'
        if not file.exists():
            self.skipTest('this is a copy of the client without the examples')
        stored = dict(line.split('\t') for line in file.read_text(encoding='utf-8').splitlines())
        self.assertEqual(xt.MEANINGS, stored)


class OwnProgram(Folder):
    def check(self, program):
        with mock.patch('xt.TOP', self.folder):
            self.assertEqual(xt.own_program(), program)

    def test_a_file_that_stands_alone(self):
        self.check('xt')

    def test_one_that_is_installed(self):
        self.check(self.file('bin/xt', ''))

    def test_one_of_the_repository(self):
        self.file('bin/xt', '')
        self.check(self.file('xt', ''))


def is_built():
    """Whether a program answers."""
    environment = {**os.environ, 'XT_UNPROVED': 'no'}
    words = [*xt.program_words(), 'session']
    try:
        return subprocess.run(words, input=b'', capture_output=True, env=environment).returncode == 0
    except OSError:
        return False


SHEET = '''<xsl:stylesheet version="1.0" xmlns:xsl="http://www.w3.org/1999/XSL/Transform">
<xsl:param name="mark" select="'*'"/>
<xsl:template match="list"><ul><xsl:apply-templates select="item"/></ul></xsl:template>
<xsl:template match="item">
  <li><xsl:value-of select="concat($mark, .)"/></li>
</xsl:template>
</xsl:stylesheet>'''
LIST = '<list><item>one</item><item>two</item></list>'


@unittest.skipUnless(is_built(), 'the proved program is not built')
class Sessions(Folder):
    def session(self):
        session = xt.Session()
        self.addCleanup(session.close)
        self.assertEqual(session.module('main', SHEET).code, 'S02')
        self.assertIsNone(session.source(LIST))
        return session

    def not_taken(self, number, change, *words):
        with self.assertRaises(xt.NotTaken) as caught:
            change(*words)
        self.assertEqual((caught.exception.number, caught.exception.code), (number, f'no {number}'))

    def test_results(self):
        session = self.session()
        self.assertEqual(session.show(), '<ul><li>*one</li><li>*two</li></ul>')
        self.assertEqual(session.show_lines(), ['(ul', '(li', '-*one', ')li', '(li', '-*two', ')li', ')ul'])
        self.assertEqual([item.text for item in session.show_tree().iter('li')], ['*one', '*two'])
        self.assertEqual(session.write(), session.show())
        self.assertEqual(session.close(), 0)

    def test_each_edit(self):
        session = self.session()
        self.assertIsNone(session.insert('source', '/1/2', '<item>between</item><!--c--> '))
        self.assertIsNone(session.text('source', (1, 1, 1), 'a\nb\\ '))
        self.assertIsNone(session.attr('source', (1,), 'id', ' x '))
        self.assertIsNone(session.attr('source', (1,), 'xmlns:p', 'u'))
        self.assertIsNone(session.rename('source', '/1/5', 'p:note'))
        self.assertIsNone(session.unattr('source', '/1', 'id'))
        self.assertIsNone(session.move('source', '/1/2', '/1/1'))
        self.assertIsNone(session.delete('source', '/1/3'))
        self.assertIsNone(session.param('mark', ''))
        self.assertEqual(xt.xml_of(session.dump('source')),
                         '<list xmlns:p="u"><item>between</item><item>a\nb\\ </item> <p:note>two</p:note></list>')
        self.assertEqual(session.show(), '<ul><li>between</li><li>a\nb\\ </li></ul>')

    def test_what_is_not_taken(self):
        session = self.session()
        self.not_taken(6, session.delete, 'source', '/9')
        self.not_taken(7, session.text, 'source', '/1', 'x')
        self.not_taken(5, session.dump, 'lib')
        self.not_taken(5, session.drop, 'lib')
        self.not_taken(8, session.param, 'mark', '\x07')
        self.not_taken(10, session.source, '<p:a/>')
        self.not_taken(2, session.param, 'mark', '\udcff')
        self.not_taken(15, session.move, 'source', '/1', '/1/1/1')
        self.assertEqual(session.show(), '<ul><li>*one</li><li>*two</li></ul>')

    def test_a_refusal(self):
        session = self.session()
        error = session.attr('main', '/1/6/2/1', 'select', 'a[')
        self.assertIs(error, session.refusal)
        self.assertEqual((error.code, error.number, error.place, error.path), ('S10', 10, 'main/1/6/2/1', '/1/6/2/1'))
        self.assertEqual(error.where, '/xsl:stylesheet[1]/xsl:template[2]/li[1]/xsl:value-of[1]')
        for ask in (session.show, session.show_tree, session.write):
            with self.assertRaises(xt.Refused) as caught:
                ask()
            self.assertIs(caught.exception, error)
        self.assertIsNone(session.attr('main', '/1/6/2/1', 'select', '.'))
        self.assertEqual(session.show(), '<ul><li>one</li><li>two</li></ul>')

    def test_a_refusal_has_the_line_of_the_xml(self):
        session = self.session()
        error = session.module('main', SHEET.replace('concat($mark, .)', '1 div 0'))
        self.assertEqual((error.code, error.line, error.file), ('D02', 5, None))

    def test_a_text_and_messages(self):
        session = self.session()
        parts = '''<xsl:output method="text"/>
            <xsl:template match="/">a&#10;é<xsl:message>m\n</xsl:message></xsl:template>'''
        self.assertIsNone(session.insert('main', '/1/1', parts))
        self.assertEqual((session.write(), session.messages()), ('a\né', ['m\n']))

    def test_counts(self):
        with xt.Session() as session:
            self.assertEqual(session.stats(), (0, 0, 0))
        session = self.session()
        self.assertGreater(session.stats().ran, 0)
        with self.assertRaises(ValueError):
            session.outcome(session.ask('stats'))

    def test_a_batch(self):
        session = self.session()
        session.begin()
        self.assertTrue(session.is_pending)
        self.assertIsNone(session.text('source', '/1/1/1', 'first'))
        self.assertIsNone(session.param('mark', '+'))
        self.assertIn('-first', session.dump('source'))
        self.assertEqual(session.show(), '<ul><li>*one</li><li>*two</li></ul>')
        self.not_taken(16, session.begin)
        self.not_taken(6, session.delete, 'source', '/9')
        self.assertIsNone(session.commit())
        self.assertFalse(session.is_pending)
        self.assertEqual(session.show(), '<ul><li>+first</li><li>+two</li></ul>')
        self.not_taken(17, session.commit)
        self.not_taken(17, session.abandon)

    def test_a_batch_that_is_abandoned(self):
        session = self.session()
        session.begin()
        self.assertIsNone(session.delete('source', '/1/1'))
        self.assertIsNone(session.drop('main'))
        session.abandon()
        self.assertEqual(session.dump('source'), xt.lines_of(LIST))
        self.assertEqual(session.show(), '<ul><li>*one</li><li>*two</li></ul>')

    def test_a_batch_of_a_with(self):
        session = self.session()
        with session.batch():
            session.insert('source', '/1/1', '<item>none</item>')
            session.delete('source', '/1/3')
            self.assertEqual(session.show(), '<ul><li>*one</li><li>*two</li></ul>')
        self.assertIsNone(session.refusal)
        self.assertEqual(session.show(), '<ul><li>*none</li><li>*one</li></ul>')
        with self.assertRaises(xt.NotTaken), session.batch():
            session.text('source', '/1/1/1', 'lost')
            session.delete('source', '/9')
        self.assertFalse(session.is_pending)
        self.assertEqual(session.show(), '<ul><li>*none</li><li>*one</li></ul>')

    def test_refusals_of_batches(self):
        session = self.session()
        with session.batch():
            self.assertIsNone(session.attr('main', '/1/6/2/1', 'select', 'a['))
        error = session.refusal
        self.assertEqual((error.code, error.place), ('S10', 'main/1/6/2/1'))
        self.assertEqual(error.where, '/xsl:stylesheet[1]/xsl:template[2]/li[1]/xsl:value-of[1]')
        session.begin()
        self.assertIsNone(session.attr('main', '/1/6/2/1', 'select', '.'))
        self.assertIsNone(session.delete('main', '/1/1'))
        for refusal in (error, None):
            session.refusal = refusal
            with self.assertRaises(xt.Refused) as caught:
                session.show()
            self.assertEqual((caught.exception.code, caught.exception.module), ('S10', 'main'))
            self.assertEqual(caught.exception.where, error.where if refusal else None)
        self.assertIsNone(session.commit())
        self.assertEqual(session.show(), '<ul><li>one</li><li>two</li></ul>')

    def test_a_stylesheet_of_files(self):
        session = self.session()
        self.assertIsNone(session.source(EXAMPLES / 'build' / 'site.xml'))
        self.assertIsNone(session.stylesheet(EXAMPLES / 'build' / 'site.xsl'))
        self.assertIn('<title>Contents - Notes on gardens</title>', session.show())
        error = session.drop('text.xsl')
        self.assertEqual((error.code, error.line, error.file), ('S03', 4, str(EXAMPLES / 'build' / 'site.xsl')))

    def test_modules_with_slashes(self):
        session = self.session()
        lib = '<xsl:stylesheet version="2.0" xmlns:xsl="http://www.w3.org/1999/XSL/Transform"/>'
        session.module('a/1', lib)
        error = session.insert('main', '/1/1', '<xsl:import href="a/1"/>')
        self.assertEqual((error.module, error.path, error.where), ('a/1', '/1', '/xsl:stylesheet[1]'))

    def test_large_documents_and_results(self):
        session = self.session()
        self.assertIsNone(session.source('<list>' + f'<item>{"x" * 100}</item>' * 20000 + '</list>'))
        self.assertEqual(len(session.show_tree()[0]), 20000)

    def test_all_commands_at_once(self):
        commands = [('source', xt.lines_of(LIST)), ('module main', xt.lines_of(SHEET))] + ['show', 'dump source'] * 2000
        replies, status = xt.replies_to(commands)
        self.assertEqual((len(replies), status), (4002, 0))
        self.assertEqual(replies[-1].lines, xt.lines_of(LIST))

    def test_a_session_that_has_ended(self):
        session = self.session()
        session.close()
        with self.assertRaises(xt.Ended):
            session.show()

    def test_what_the_page_of_clients_says(self):
        page = xt.TOP / 'docs' / 'CLIENTS.md'
        if not page.exists():
            self.skipTest('this is a copy of the client without its page')
        done = doctest.testfile(str(page), module_relative=False, verbose=False)
        self.assertEqual((done.failed, done.attempted > 10), (0, True))

    def test_a_program_that_ends(self):
        words = [sys.executable, '-c', 'raise SystemExit(3)']
        with self.assertRaises(xt.Ended) as caught, xt.Session(words) as session:
            session.show()
        self.assertEqual(caught.exception.status, 3)
        with self.assertRaises(xt.Ended):
            xt.Session('/no/such/program')


if __name__ == '__main__':
    unittest.main()
