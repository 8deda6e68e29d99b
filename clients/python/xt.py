#!/usr/bin/env python3
"""A client of xt: sessions as objects, and XML as the lines that a session takes, and back.

    from pathlib import Path
    import xt

    with xt.Session() as session:
        session.stylesheet(Path('books.xsl'))
        session.source('<catalogue><book><title>Sky</title></book></catalogue>')
        print(session.show())
        session.text('source', '/1/1/1/1', 'Sea')
        print(session.show())

It needs Python 3.9 or later and nothing beside its standard library, and it is one file, which may be copied.
docs/CLIENTS.md has its use on one page, docs/SESSION.md is the manual of a session, and docs/XML.md tells what becomes
of XML. By itself it converts:

    xt.py to-pyx [--external] [FILE]    writes the PYX lines of an XML file
    xt.py to-xml [FILE]                 writes PYX lines as XML
"""
import os
import re
import subprocess
import sys
import threading
from collections import Counter
from contextlib import contextmanager
from pathlib import Path
from typing import NamedTuple, Optional
from urllib.parse import unquote, urlsplit
from xml.etree import ElementTree
from xml.parsers import expat

XSLT = 'http://www.w3.org/1999/XSL/Transform'
TOP = Path(__file__).resolve().parent.parent.parent

# What each code of a refusal says. examples/lib/codes has the same lines for programs in other languages.
MEANINGS = {
    'no 1': 'there is no memory for it',
    'no 2': 'it is not UTF-8',
    'no 3': 'there is no such command',
    'no 4': 'the command does not have this form',
    'no 5': 'there is no document of this name',
    'no 6': 'the path leads out of the document, or there is no such attribute',
    'no 7': 'the node at the path is of the wrong kind',
    'no 8': 'a line is not of PYX, or holds a character that XML does not have',
    'no 9': 'there would not be exactly one document element, or its lines are not balanced',
    'no 10': 'a name is no name, or its prefix is not declared, or a declaration is not allowed',
    'no 11': 'an element would stand deeper than 256',
    'no 12': 'there are no more numbers for nodes',
    'no 14': 'an element would have two attributes of one name',
    'no 15': 'a node would stand below itself',
    'no 16': 'a batch of changes is open already',
    'no 17': 'no batch of changes is open',
    'S01': 'there is no principal module',
    'S02': 'there is no source',
    'S03': 'no module has the name of this href',
    'S04': 'this import or include leads back to its own module',
    'S05': 'the document element is no stylesheet',
    'S06': 'the version is missing, or is not 1.0',
    'S07': 'this element of XSLT is unknown, or may not stand here',
    'S08': 'an attribute is missing, unknown, or of a value that it may not have',
    'S09': 'text or an element that is not of XSLT may not stand here',
    'S10': 'an expression is not of XPath',
    'S11': 'a pattern is not of XSLT',
    'S12': 'an expression or pattern has more than 64 open brackets',
    'S13': 'a number or priority is no whole number, or too long',
    'S14': 'a prefix is not declared',
    'S15': 'a name, or a name in a list, is none',
    'S16': 'there is no such function, or not with this many arguments',
    'S17': 'there is no such variable here',
    'S18': 'a local variable of this name is there already',
    'S19': 'there are two global variables of this name',
    'S20': 'there are two templates of this name',
    'S21': 'there is no template of this name',
    'S22': 'there is no attribute set of this name, or it uses itself',
    'S23': 'there is a select and also content',
    'S24': 'a variable, current() or key() may not stand in this pattern or key',
    'S25': 'xsl:decimal-format and extensions are left out',
    'S26': 'a brace of a value template has no partner',
    'D01': 'a number would be a fraction',
    'D02': 'a number would be infinite',
    'D03': 'a number would be greater than 9007199254740991',
    'D04': 'nodes are wanted here, and this is something else',
    'D06': 'a global variable needs itself',
    'D07': 'there is no current template rule here',
    'D08': 'a name that was made, or that a function reads, is none',
    'D09': 'the order or data-type of a sort is unknown',
    'D10': 'a message ended the run',
    'D11': 'templates and what they hold are nested deeper than 1200',
}


# ---- Errors

class Error(Exception):
    """Something was not taken, or there is no result. What an error does not know is None.

    `code`    what the session says, as `no 10`, `S10` or `D01`
    `number`  the number in the code
    `meaning` what the code says, in a line
    `file`    the XML file
    `line`    the line of the XML text, from 1
    `place`   the place as the session names it, as `main/1/4/2`, or `-`
    `module`  the module of that place
    `path`    the path in that module, as it is now
    `where`   the same node in words, as `/xsl:stylesheet[1]/xsl:template[2]`
    """

    def __init__(self, said, **known):
        super().__init__(said)
        self.code = known.get('code')
        self.number = int(re.search(r'\d+', self.code)[0]) if self.code else None
        self.meaning = MEANINGS.get(self.code)
        for name in ('file', 'line', 'place', 'module', 'path', 'where'):
            setattr(self, name, known.get(name))


class NotXml(Error):
    """A text is no XML, or PYX lines stand for something that XML cannot write."""


class BadHref(Error):
    """A module of a stylesheet cannot be sent under its href."""


class NotTaken(Error):
    """The session answered `no N`: the command is not carried out, and nothing has changed."""


class Refused(Error):
    """The stylesheet or its run is refused, so there is no result. The change that led there has been made."""


class Ended(Error):
    """The program cannot be started, or has ended, and `status` is how."""

    def __init__(self, said, status):
        super().__init__(said)
        self.status = status


# ---- PYX lines

ESCAPES = {'\n': '\\n', '\t': '\\t', '\r': '\\r', '\\': '\\\\'}
CHARACTERS = {written: character for character, written in ESCAPES.items()}
TO_ESCAPE = re.compile(r'[\n\t\r\\]')
ESCAPE = re.compile(r'\\[ntr\\]')


def escaped(text):
    """A value or text as a line writes it."""
    return TO_ESCAPE.sub(lambda found: ESCAPES[found[0]], text)


def unescaped(text):
    """What a value or text of a line stands for. A backslash that begins no escape stands for itself."""
    return ESCAPE.sub(lambda found: CHARACTERS[found[0]], text) if '\\' in text else text


def nodes_of(lines):
    """Each node of these lines in document order: the index of its line, how many elements stand around it, and what
    XPath calls it. Texts side by side are one node."""
    depth, in_text = 0, False
    for index, line in enumerate(lines):
        kind = line[:1]
        if kind == '(':
            yield index, depth, line[1:]
            depth += 1
        elif kind == ')':
            depth -= 1
        elif kind == '-' and len(line) > 1 and depth and not in_text:
            yield index, depth, 'text()'
        elif kind == '?':
            yield index, depth, 'processing-instruction()'
        elif kind == 'C':
            yield index, depth, 'comment()'
        if line:
            in_text = kind == '-' and (in_text or len(line) > 1)


def find(lines, path):
    """The node at a path of a document: the node in words, as `/list[1]/item[2]/text()[1]`, and the index of the line
    that begins the element that it is or stands in. None where the path leads out."""
    wanted = [int(position) for position in path.split('/')[1:] if position]
    way, element, children = '', None, Counter()
    found = 0
    for index, depth, name in nodes_of(lines):
        if depth < found or found == len(wanted):
            break
        if depth > found:
            continue
        children.update([None, name])
        if children[None] == wanted[found]:
            way = f'{way}/{name}[{children[name]}]'
            element = index if lines[index][0] == '(' else element
            found += 1
            children.clear()
    return (way or '/', element) if found == len(wanted) else None


# ---- From XML to lines

class Document(NamedTuple):
    """A document as lines, and, where it was XML, the line of that text for the line of each start of an element, by
    its index, and the file."""
    lines: list
    numbers: dict = {}
    file: Optional[str] = None


# What holds no markup, and then the starts of elements and the declarations that give values to attributes.
NO_MARKUP = re.compile(r'<!--.*?-->|<!\[CDATA\[.*?\]\]>|<\?.*?\?>', re.S)
WITH_VALUES = re.compile(r'''<(?:!ATTLIST\s|[^\s<>!?/"'&])(?:"[^"<]*"|'[^'<]*'|[^<>"'])*>''')


class Reader:
    """Reads XML with expat and collects its lines. Names are taken as they are written, so declarations of namespaces
    come as attributes do, in their place. What a document type says is carried out and not kept."""

    def __init__(self, external):
        """`external` lets entities and document types be read from other files of the machine; from the net nothing is
        read."""
        self.external = external
        self.lines = []
        self.numbers = {}
        self.text = []
        self.entities = {'lt', 'gt', 'amp', 'apos', 'quot'}
        self.is_in_type = False
        self.may_pass_over = False
        self.parser = None
        self.file = None

    def read(self, pieces, file=None):
        """Reads one document, which comes in pieces and stands in a file, or in none."""
        parser = expat.ParserCreate()
        parser.ordered_attributes = True
        parser.buffer_text = True
        parser.SetParamEntityParsing(expat.XML_PARAM_ENTITY_PARSING_ALWAYS)
        parser.SetBase(file or '.')
        parser.StartElementHandler = self.start
        parser.EndElementHandler = self.end
        parser.CharacterDataHandler = self.text.append
        parser.CommentHandler = self.comment
        parser.ProcessingInstructionHandler = self.instruction
        parser.StartDoctypeDeclHandler = self.start_type
        parser.EndDoctypeDeclHandler = self.end_type
        parser.EntityDeclHandler = self.declare
        parser.SkippedEntityHandler = self.skip
        parser.ExternalEntityRefHandler = self.enter
        self.parse(parser, pieces, file)
        return Document(self.lines, self.numbers, file)

    def parse(self, parser, pieces, file):
        """Gives the text of a file to a parser, and tells its faults."""
        outer = self.parser, self.file
        self.parser, self.file = parser, file
        try:
            for piece in pieces:
                parser.Parse(piece, False)
            parser.Parse('', True)
        except expat.ExpatError as error:
            raise self.fault(f'{expat.ErrorString(error.code)}, at column {error.offset + 1}', error.lineno) from None
        except UnicodeEncodeError:
            raise self.fault('it holds half a surrogate pair') from None
        if self.may_pass_over:
            self.find_undeclared(''.join(pieces))
        self.parser, self.file = outer

    def fault(self, said, line=None):
        """The error that tells this of the text that is being read."""
        known = [part for part in (self.file, f'line {line}' if line else None, said) if part]
        return NotXml(': '.join(known), file=self.file, line=line)

    def fault_here(self, said):
        return self.fault(said, self.parser.CurrentLineNumber)

    def put(self, line):
        """One more line, behind the text that has come before it."""
        if self.text:
            self.lines.append('-' + escaped(''.join(self.text)))
            self.text.clear()
        self.lines.append(line)

    def start(self, name, attributes):
        self.put('(' + name)
        self.numbers[len(self.lines) - 1] = self.parser.CurrentLineNumber
        for at in range(0, len(attributes), 2):
            self.lines.append(f'A{attributes[at]} {escaped(attributes[at + 1])}')

    def end(self, name):
        self.put(')' + name)

    def comment(self, text):
        if not self.is_in_type:
            self.put('C' + escaped(text))

    def instruction(self, target, text):
        if not self.is_in_type:
            self.put('?' + target + (' ' + escaped(text) if text else ''))

    def start_type(self, name, system, public, has_subset):
        self.is_in_type = True
        self.may_pass_over = system is not None

    def end_type(self):
        self.is_in_type = False

    def declare(self, name, is_parameter, value, base, system, public, notation):
        if is_parameter:
            self.may_pass_over = True
        elif notation is None:
            self.entities.add(name)

    def skip(self, name, is_parameter):
        if not is_parameter:
            raise self.fault_here(f'the entity {name} is not declared')

    def find_undeclared(self, text):
        """Refuses a reference to an entity that is not declared in a value of an attribute. Where a document type may
        stand in other files, expat passes over such a reference without a word."""
        for tag in WITH_VALUES.findall(NO_MARKUP.sub('', text)):
            for name in re.findall('&([^#;][^;]*);', tag):
                if name not in self.entities:
                    raise self.fault(f'the entity {name} is not declared')

    def enter(self, context, base, system, public):
        """Reads another file where the text names it: a part of the document, or, where there is no context, of its
        document type. A document type that is not there, or may not be read, is passed over."""
        file = local_file(system, base) if self.external else None
        if file is None and context is None:
            return 1
        if file is None:
            raise self.fault_here(f'an entity stands in another file, {system}, which is not read')
        inner = self.parser.ExternalEntityParserCreate(context)
        inner.SetBase(file)
        self.parse(inner, [characters_of(file)], file)
        return 1


def local_file(system, base):
    """The file that a system identifier names, beside the file that holds it; None where there is none on this
    machine."""
    try:
        parts = urlsplit(system)
    except ValueError:
        return None
    file = os.path.join(os.path.dirname(base or ''), unquote(parts.path))
    is_local = parts.scheme in ('', 'file') and parts.netloc in ('', 'localhost')
    return file if is_local and os.path.isfile(file) else None


def characters_of(file):
    """The characters of an XML file."""
    try:
        return decoded(Path(file).read_bytes(), file)
    except OSError as error:
        raise NotXml(f'{file}: {error.strerror}', file=file) from None


MARKS = ((b'\xef\xbb\xbf', 'utf-8-sig'), (b'\xff\xfe', 'utf-16'), (b'\xfe\xff', 'utf-16'), (b'<\0?\0', 'utf-16-le'),
         (b'\0<\0?', 'utf-16-be'))


def decoded(data, file=None):
    """The characters of an XML file, by its first bytes and its XML declaration."""
    declared = re.match(rb'''<\?xml\s[^>]*?encoding\s*=\s*["']([A-Za-z][\w.-]*)["']''', data)
    encoding = next((encoding for mark, encoding in MARKS if data.startswith(mark)), None)
    if encoding is None:
        encoding = declared[1].decode('ascii') if declared else 'utf-8'
    front = file + ': ' if file else ''
    try:
        return data.decode(encoding)
    except UnicodeDecodeError as error:
        line = data.count(b'\n', 0, error.start) + 1
        raise NotXml(f'{front}line {line}: it is not of the encoding {encoding}', file=file, line=line) from None
    except LookupError:
        raise NotXml(f'{front}line 1: the encoding {encoding} is not known', file=file, line=1) from None


def document_of(given, external=False):
    """A document as lines. It is given as XML text (a string, or bytes, whose encoding counts), as the path of an XML
    file (an os.PathLike, as pathlib.Path), or as the lines themselves (any other iterable of strings). `external` lets
    entities be read from other files of the machine: do not read files of people whom you do not trust in this way."""
    if isinstance(given, os.PathLike):
        file = os.fspath(given)
        return Reader(external).read([characters_of(file)], file)
    if isinstance(given, (bytes, bytearray)):
        given = decoded(bytes(given))
    if isinstance(given, str):
        return Reader(external).read([given])
    return Document(list(given))


def lines_of(given, external=False):
    """The lines of a document that is given as `document_of` tells."""
    return document_of(given, external).lines


def lines_of_nodes(given):
    """The lines of nodes to insert: of XML text, which may be any number of nodes and may use prefixes that are
    declared where they come to, of the path of an XML file, or the lines themselves."""
    if isinstance(given, str):
        return Reader(False).read(['<nodes>', given, '</nodes>']).lines[1:-1]
    return lines_of(given)


# ---- From lines to XML

REFERENCES = {'&': '&amp;', '<': '&lt;', '>': '&gt;', '"': '&quot;', '\n': '&#10;', '\t': '&#9;', '\r': '&#13;'}
IN_TEXT = re.compile('[&<>\r]')
IN_VALUE = re.compile('[&<>"\n\t\r]')


def as_text(text):
    """A text as XML writes it."""
    return IN_TEXT.sub(lambda found: REFERENCES[found[0]], text)


def as_value(text):
    """The value of an attribute as XML writes it, between two `"`."""
    return IN_VALUE.sub(lambda found: REFERENCES[found[0]], text)


def as_comment(text):
    if '--' in text or text.endswith('-'):
        raise NotXml('a comment holds `--` or ends with `-`, which XML cannot write')
    return f'<!--{text}-->'


def as_instruction(text):
    if '?>' in text:
        raise NotXml('a processing instruction holds `?>`, which XML cannot write')
    return f'<?{text}?>'


def xml_of(lines):
    """Lines as XML: without an XML declaration, without a character that is not in them, `<a/>` for an element without
    content, and references where a reader would change what stands there. The lines of a result may be several nodes
    side by side, or a text, which no reader takes alone."""
    made, is_open = [], False
    for line in lines:
        kind, rest = line[:1], line[1:]
        if kind == 'A':
            name, _, value = rest.partition(' ')
            made.append(f' {name}="{as_value(unescaped(value))}"')
        elif kind == ')' and is_open:
            made.append('/>')
            is_open = False
        elif kind:
            made.append('>' if is_open else '')
            is_open = kind == '('
            made.append(markup(kind, rest))
    return ''.join(made)


def markup(kind, rest):
    """What XML writes for a line that is none of an attribute. A start is left open."""
    if kind == '(':
        return '<' + rest
    if kind == ')':
        return f'</{rest}>'
    if kind == '-':
        return as_text(unescaped(rest))
    if kind == 'C':
        return as_comment(unescaped(rest))
    if kind == '?':
        return as_instruction(unescaped(rest))
    raise NotXml(f'a line is none of PYX: {kind}{rest}')


def tree_of(lines):
    """Lines as a tree of xml.etree.ElementTree. What it gives is an Element without a tag, which holds what stands at
    the top, since a result may be any number of nodes, or a text. Names are `{uri}local`; declarations are gone."""
    tree = ElementTree.Element(None)
    open_elements, scopes = [tree], [{'xml': 'http://www.w3.org/XML/1998/namespace'}]
    for start, group in groups_of(lines):
        kind, rest = start[:1], start[1:]
        if kind == '(':
            scopes.append(scope_within(scopes[-1], group))
            element = ElementTree.SubElement(open_elements[-1], expanded(rest, scopes[-1], True))
            element.attrib.update(attributes_of(group, scopes[-1]))
            open_elements.append(element)
        elif kind == ')':
            open_elements.pop()
            scopes.pop()
        elif kind == '-':
            add_text(open_elements[-1], unescaped(rest))
        elif kind == 'C':
            open_elements[-1].append(ElementTree.Comment(unescaped(rest)))
        elif kind == '?':
            target, _, text = unescaped(rest).partition(' ')
            open_elements[-1].append(ElementTree.ProcessingInstruction(target, text or None))
    return tree


def groups_of(lines):
    """Each line that is none of an attribute, with the names and values of the attributes behind it."""
    group = None
    for line in lines:
        if line.startswith('A'):
            name, _, value = line[1:].partition(' ')
            group[1].append((name, unescaped(value)))
        elif line:
            if group:
                yield group
            group = (line, [])
    if group:
        yield group


def scope_within(scope, attributes):
    """The URIs by prefix in an element with these attributes and declarations."""
    declared = {name[6:]: value for name, value in attributes if is_declaration(name)}
    return {**scope, **declared} if declared else scope


def is_declaration(name):
    return name == 'xmlns' or name.startswith('xmlns:')


def expanded(name, scope, is_element):
    """A name with its URI. The default namespace is of elements alone."""
    prefix, colon, local = name.rpartition(':')
    uri = scope.get(prefix) if colon or is_element else None
    return f'{{{uri}}}{local}' if uri else name


def attributes_of(attributes, scope):
    return {expanded(name, scope, False): value for name, value in attributes if not is_declaration(name)}


def add_text(element, text):
    """One more text behind all that the element holds so far."""
    if len(element):
        element[-1].tail = (element[-1].tail or '') + text
    else:
        element.text = (element.text or '') + text


# ---- The modules of a stylesheet

class Module(NamedTuple):
    """A module of a stylesheet: its name in a session, and its document."""
    name: str
    document: Document


def modules_of(file, external=False):
    """The modules of the stylesheet in a file: itself, as `main`, and all that it imports and includes. A module has
    the href that names it as its name, and its file is found from the folder of the module that names it. Where an href
    is no file nothing is read, and the session will say so at the place of the href (S03)."""
    modules = [Module('main', document_of(Path(file), external))]
    for module in modules:
        for href in hrefs_of(module.document.lines):
            found = file_of_href(href, module.document.file)
            if found is not None and is_new(href, found, module.document.file, modules[1:]):
                modules.append(Module(href, document_of(Path(found), external)))
    return modules


def hrefs_of(lines):
    """The href of each xsl:import and xsl:include at the top of a stylesheet module, in document order."""
    hrefs, scopes = [], [{}]
    for start, attributes in groups_of(lines):
        if start[0] == '(':
            scopes.append(scope_within(scopes[-1], attributes))
            name = expanded(start[1:], scopes[-1], True)
            if len(scopes) == 3 and name in (f'{{{XSLT}}}import', f'{{{XSLT}}}include'):
                hrefs += [value for key, value in attributes if key == 'href']
        elif start[0] == ')':
            scopes.pop()
    return hrefs


def file_of_href(href, base):
    """The file that an href in this file names, or None."""
    file = os.path.join(os.path.dirname(base), href)
    return file if os.path.isfile(file) else None


def is_new(href, file, base, modules):
    """Whether none of these modules has this href as its name. One that has it must be of the same file."""
    if href in ('main', 'source') or re.search('[ \n]', href):
        raise BadHref(f"{base}: a module of a session cannot be named '{href}'", file=base)
    known = next((module.document.file for module in modules if module.name == href), None)
    if known is not None and not os.path.samefile(known, file):
        raise BadHref(f"{base}: the href '{href}' stands for {file} here, and for {known} elsewhere", file=base)
    return known is None


# ---- Replies

class Reply(NamedTuple):
    """One reply: its bytes, its first line, and the lines of a document, a result or messages (without the `.`) or the
    text of a result, where it is one of these."""
    raw: bytes
    line: str
    lines: Optional[list] = None
    text: Optional[str] = None


class Counts(NamedTuple):
    """What a change has cost: how many instantiations were run, how many kept reads were asked again, and how many
    instructions and literal result elements were run."""
    ran: int
    asked: int
    did: int


def read_line(stream):
    """The next line of a stream of bytes, with its line feed."""
    line = stream.readline()
    if not line.endswith(b'\n'):
        raise EOFError
    return line


def read_reply(stream):
    """The next reply of a stream of bytes; EOFError where the stream ends before it does."""
    first = read_line(stream)
    line = first[:-1].decode()
    if line.startswith(('ok ', 'no ', 'refused ', 'ran ')):
        return Reply(first, line)
    if line.startswith('text '):
        size = int(line[5:])
        text = stream.read(size + 1)
        if len(text) <= size:
            raise EOFError
        return Reply(first + text, line, text=text[:-1].decode())
    raw = [first]
    while raw[-1] != b'.\n':
        raw.append(read_line(stream))
    return Reply(b''.join(raw), line, lines=[part[:-1].decode() for part in raw[:-1]])


# ---- Commands

WITH_BODY = ('source', 'module', 'insert')
OF_DOCUMENTS = ('module', 'insert', 'delete', 'text', 'attr', 'unattr', 'rename', 'move')


def command_bytes(line, body=None):
    """The bytes of a command and its body. It is a ValueError where they would be something else: several commands, a
    command without a reply, or one whose body is missing or ends early."""
    name = re.sub('\r$', '', line).split(' ')[0]
    if '\n' in line or line in ('', '\r', 'quit', 'quit\r'):
        raise ValueError(f'this is not one command with a reply: {line!r}')
    if (name in WITH_BODY) != (body is not None):
        raise ValueError(f'a body goes with these commands and no other: {", ".join(WITH_BODY)}')
    lines = [line] if body is None else [line, *body, '.']
    if any('\n' in part or part in ('.', '.\r') for part in lines[1:-1]):
        raise ValueError('a line of a body holds a line feed, or is the line that ends it')
    return ''.join(part + '\n' for part in lines).encode('utf-8', 'surrogateescape')


def word(text):
    """A word of a command."""
    if not text or re.search('[ \n]', text):
        raise ValueError(f'this is no word of a command: {text!r}')
    return text


def path_word(path):
    """A path as a command writes it: given so, as `/1/2`, or as positions, as (1, 2)."""
    return word(path if isinstance(path, str) else '/' + '/'.join(str(position) for position in path))


# ---- Sessions

NOT_BUILT = 69


def own_program():
    """The program that belongs to this file: ./xt of this repository, bin/xt where both are installed, or xt on the
    path where the file stands alone."""
    return next((path for path in (TOP / 'xt', TOP / 'bin' / 'xt') if path.is_file()), 'xt')


def program_words(program=None):
    """The words that start a program: those that are given, of the environment variable XT, or of its own program."""
    if program is None:
        program = os.environ['XT'].split() if os.environ.get('XT') else own_program()
    return [os.fspath(program)] if isinstance(program, (str, os.PathLike)) else list(program)


def started(program, **more):
    """The program, started with pipes."""
    words = [*program_words(program), 'session']
    try:
        return subprocess.Popen(words, stdin=subprocess.PIPE, stdout=subprocess.PIPE, **more)
    except OSError as error:
        raise Ended(f'{words[0]}: {error.strerror}', 127) from None


def replies_to(commands, program=None):
    """The replies to commands, which are all sent before the input ends: a list, and the status of the program. A
    command is its line, or its line and its body. They are written by a thread of their own, so that neither side waits
    for the other. This way also the unproved program answers, which replies only at the end of its input."""
    data = [command_bytes(*([command] if isinstance(command, str) else command)) for command in commands]
    with started(program) as process:
        writer = threading.Thread(target=write_all, args=(process.stdin, data))
        writer.start()
        replies = []
        try:
            while len(replies) < len(data):
                replies.append(read_reply(process.stdout))
        except EOFError:
            pass
        writer.join()
    return replies, process.returncode


def write_all(stream, parts):
    """Writes all parts and closes the stream. Where the program has ended there is nobody to write to."""
    try:
        for part in parts:
            stream.write(part)
        stream.close()
    except OSError:
        pass


class Session:
    """A session: a program that runs, and answers each command before the next one is sent.

    Documents are given as `document_of` tells: as XML text, as paths of files, or as lines. A document is named
    `source`, or by the name of its module; `main` is the principal module. A path is `/1/2`, or (1, 2).

    Each change gives None where there is a result afterwards, and else the Refused that tells why not, which is not
    raised, and stands in `refusal` until the next change. A change that is not taken raises NotTaken. What asks for the
    result raises the Refused. A session is for one thread.

    While a batch of changes is open (`begin`, or `batch`), a change gives None, since nothing has come of it yet, and
    `refusal` stays: the result is that of the present documents until `commit`."""

    def __init__(self, program=None, external=False):
        """Starts the program: a path, or words; by default those of the environment variable XT, or its own
        program (`own_program`), which must be the proved one. `external` is as in `document_of`."""
        self.external = external
        self.refusal = None
        self.status = None
        self._modules = {}
        self._present = None
        self._is_waiting = False
        self._process = started(program, env={**os.environ, 'XT_UNPROVED': 'no'})

    def __enter__(self):
        return self

    def __exit__(self, *raised):
        self.close()

    def close(self):
        """Ends the session, and gives the status of the program."""
        if self.status is None:
            write_all(self._process.stdin, [] if self._is_waiting else [b'quit\n'])
            self._process.stdout.read()
            self._process.stdout.close()
            self.status = self._process.wait()
        return self.status

    # Changes

    def source(self, document):
        """Sets the source."""
        return self.change('source', lines_of(document, self.external))

    def module(self, name, document):
        """Sets the module of this name."""
        return self._set_module(name, document_of(document, self.external))

    def stylesheet(self, file):
        """Sets the stylesheet in a file as `main`, with all modules that it imports and includes (`modules_of`)."""
        main, *others = modules_of(file, self.external)
        for module in [*others, main]:
            self._set_module(*module)
        return self.refusal

    def drop(self, name):
        """Drops the module of this name."""
        return self.change('drop ' + word(name))

    def insert(self, document, path, nodes):
        """Inserts nodes before the node at the path, or behind the last child; see `lines_of_nodes`."""
        return self.change(f'insert {word(document)} {path_word(path)}', lines_of_nodes(nodes))

    def delete(self, document, path):
        """Deletes the node at the path, with all below it."""
        return self.change(f'delete {word(document)} {path_word(path)}')

    def text(self, document, path, value):
        """Sets the content of the text, comment or processing instruction at the path."""
        return self.change(f'text {word(document)} {path_word(path)} {escaped(value)}')

    def attr(self, document, path, name, value):
        """Sets the attribute or declaration of this name, as it is written, of the element at the path."""
        return self.change(f'attr {word(document)} {path_word(path)} {word(name)} {escaped(value)}')

    def unattr(self, document, path, name):
        """Takes the attribute or declaration of this name away."""
        return self.change(f'unattr {word(document)} {path_word(path)} {word(name)}')

    def rename(self, document, path, name):
        """Renames the element or processing instruction at the path."""
        return self.change(f'rename {word(document)} {path_word(path)} {word(name)}')

    def move(self, document, path, to):
        """Moves the node at the first path before the node at the second, or behind the last child there."""
        return self.change(f'move {word(document)} {path_word(path)} {path_word(to)}')

    def param(self, name, value):
        """Sets the xsl:param at the top of this name to a string."""
        return self.change(f'param {word(name)} {escaped(value)}')

    # Batches of changes

    def begin(self):
        """Opens a batch: until it ends, changes are pending, and paths and `dump` speak of the pending documents."""
        self._told('begin', 'ok pending')

    def commit(self):
        """Makes what is pending present, in one change, and gives what comes of it, as a change does."""
        return self.change('commit')

    def abandon(self):
        """Drops what is pending. All is as it was at `begin`."""
        self._told('abandon', 'ok dropped')

    @property
    def is_pending(self):
        """Whether a batch is open."""
        return self._present is not None

    @contextmanager
    def batch(self):
        """A batch for a `with`. It is committed behind its last line, and what comes of that stands in `refusal`; where
        an error is raised in it, it is abandoned. Where the commit is not taken it is still open."""
        self.begin()
        try:
            yield self
        except BaseException:
            if self.is_pending and self.status is None and not self._is_waiting:
                self.abandon()
            raise
        if self.is_pending:
            self.commit()

    # What is asked

    def show(self):
        """The result as XML."""
        return xml_of(self.show_lines())

    def show_lines(self):
        """The result as lines."""
        return self._shown('show').lines

    def show_tree(self):
        """The result as a tree (`tree_of`)."""
        return tree_of(self.show_lines())

    def write(self):
        """The result as its output method has it: the text, or XML."""
        reply = self._shown('write')
        return xml_of(reply.lines) if reply.text is None else reply.text

    def messages(self):
        """What xsl:message said in the last run: a list of texts."""
        return [unescaped(line[1:]) for line in self._shown('messages').lines]

    def stats(self):
        """What the last accepted change has cost (`Counts`)."""
        reply = self.ask('stats')
        if not reply.line.startswith('ran '):
            raise not_taken(reply)
        return Counts(*(int(number) for number in reply.line.split(' ')[1::2]))

    def dump(self, document):
        """The lines of a document as it is held."""
        return self._shown('dump ' + word(document)).lines

    # Commands as they are

    def ask(self, line, body=None):
        """Sends a command as it is written, with the lines of its body, and gives its Reply."""
        data = command_bytes(line, body)
        if self._is_waiting or self.status is not None:
            raise Ended('the session has ended, or a reply was not read to its end', self.status)
        self._is_waiting = True
        try:
            self._process.stdin.write(data)
            self._process.stdin.flush()
            reply = read_reply(self._process.stdout)
        except (OSError, EOFError):
            raise self._ended() from None
        self._is_waiting = False
        if reply.line.startswith('ok '):
            self._note(line)
        return reply

    def change(self, line, body=None):
        """Sends a change as it is written, and gives its outcome."""
        return self.outcome(self.ask(line, body))

    def outcome(self, reply):
        """What the reply to a change comes to: None, or the Refused; NotTaken is raised."""
        if reply.line.startswith('no '):
            raise not_taken(reply)
        if reply.line in ('ok pending', 'ok dropped'):
            return None
        if not reply.line.startswith('ok '):
            raise ValueError(f'this is no reply to a change: {reply.line!r}')
        self.refusal = None if reply.line == 'ok done' else self._refused(*reply.line.split(' ')[2:])
        return self.refusal

    def _told(self, line, wanted):
        """Sends a command that has this reply and no other but `no N`."""
        reply = self.ask(line)
        if reply.line != wanted:
            raise not_taken(reply)

    def _set_module(self, name, document):
        reply = self.ask('module ' + word(name), document.lines)
        if reply.line.startswith('ok '):
            self._modules[name] = document
        return self.outcome(reply)

    def _shown(self, line):
        """The reply to a command that asks for lines or a text, where it is answered by these."""
        reply = self.ask(line)
        if reply.line.startswith('refused '):
            code, place = reply.line.split(' ')[1:]
            known = self.refusal
            same = known is not None and (known.code, known.place) == (code, place)
            raise known.with_traceback(None) if same else self._refused(code, place)
        if reply.lines is None and reply.text is None:
            raise not_taken(reply)
        return reply

    def _note(self, line):
        """Keeps which modules are held, and in a batch which are present. That of one that was changed is no more as its
        XML was."""
        words = line.removesuffix('\r').split(' ')
        if words[0] == 'begin':
            self._present = dict(self._modules)
        elif words[0] == 'commit':
            self._present = None
        elif words[0] == 'abandon':
            self._modules, self._present = self._present, None
        elif words[0] == 'drop':
            self._modules.pop(words[1], None)
        elif words[0] in OF_DOCUMENTS and words[1] != 'source':
            self._modules[words[1]] = None

    def _refused(self, code, place):
        """The error of a refusal, with its node in words. A module that is as it was sent is not asked for, and in a batch
        none is: `dump` tells what is pending, and a refusal is of what is present."""
        modules = self._present if self.is_pending else self._modules
        module, path = module_and_path(place, modules)
        document = modules.get(module)
        if module is not None and document is None and not self.is_pending:
            document = self._dumped(module)
        return refused(code, place, module, path, document)

    def _dumped(self, module):
        """The document of a module as it is held, or None for want of memory."""
        try:
            return Document(self.dump(module))
        except NotTaken:
            return None

    def _ended(self):
        """The error of a program that has ended by itself."""
        status = self.close()
        if status == NOT_BUILT:
            return Ended('the proved program is not built', status)
        return Ended(f'the program ended with status {status}', status)


def not_taken(reply):
    """The error of a reply `no N`."""
    return NotTaken(f'{reply.line}: {MEANINGS.get(reply.line, "it is not taken")}', code=reply.line)


def module_and_path(place, names):
    """The module and the path of a place. A name may hold `/` too, so the path is the longest end of positions that
    leaves one of these names. None, None where the place names no node."""
    parts = place.split('/')
    for at in range(1, len(parts) + 1):
        if '/'.join(parts[:at]) in names and all(re.fullmatch('[1-9][0-9]*', part) for part in parts[at:]):
            return '/'.join(parts[:at]), '/' + '/'.join(parts[at:])
    return None, None


def refused(code, place, module=None, path=None, document=None):
    """The error of a refusal at a place, with what the document of its module tells of it."""
    document = document or Document([])
    where, element = find(document.lines, path or '/') or (None, None)
    line = document.numbers.get(element)
    named = [document.file or module, f'line {line}' if line else None, where or place] if module else [place]
    said = ': '.join(part for part in [*named, code, MEANINGS.get(code, 'it is refused')] if part)
    return Refused(said, code=code, file=document.file, line=line, place=place, module=module, path=path, where=where)


# ---- By itself

def main(words):
    """Converts a file, or standard input."""
    way, *files = [part for part in words if part != '--external'] or ['']
    if way not in ('to-pyx', 'to-xml') or len(files) > 1:
        print('usage: xt.py to-pyx [--external] [FILE] | xt.py to-xml [FILE]', file=sys.stderr)
        return 2
    try:
        if way == 'to-pyx':
            given = Path(files[0]) if files else sys.stdin.buffer.read()
            made = ''.join(line + '\n' for line in lines_of(given, '--external' in words))
        else:
            data = Path(files[0]).read_bytes() if files else sys.stdin.buffer.read()
            made = xml_of(data.decode().split('\n'))
    except (NotXml, OSError, UnicodeDecodeError) as error:
        print(f'xt.py: {error}', file=sys.stderr)
        return 1
    sys.stdout.buffer.write(made.encode())
    return 0


if __name__ == '__main__':
    sys.exit(main(sys.argv[1:]))
