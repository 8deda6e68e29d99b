"""The preview in the browser as somebody uses it, for tools/check-examples: what is typed and pressed, and what the
page shows then."""
import http.client
import json
import re
import subprocess
from contextlib import contextmanager
from urllib.parse import urlsplit

from lib.chromium import Browser, Failed
from lib.crates import TOP

EXAMPLES = TOP / 'examples'
IS_LOADED = "document.readyState === 'complete' && document.querySelector('#log li') !== null"
RESULT = "document.getElementById('markup').textContent"
REPLY = "document.querySelector('#log .reply').textContent"
COST = "document.querySelector('#log .took').textContent + ' ' + document.querySelector('#log .counts').textContent"
FRAME = "document.getElementById('look').contentDocument"

# Whether all that is shown has room within its column.
IS_WITHIN = "[...document.querySelectorAll('.column')].every(column => column.scrollWidth <= column.clientWidth)"

# Markup that would run a script, if a page took it for its own. `taken` is what tells.
HOSTILE = '<img src="x" onerror="top.taken = true"/><script>top.taken = true</script>'

# Whether the trees of the page are those of the documents that the session holds.
IS_AS_HELD = """ask('open').then(answer => {
  const plain = ({kind, name, value, attributes, children}) => [kind, name, value, attributes, children.map(plain)];
  const same = (one, other) => JSON.stringify(plain(one)) === JSON.stringify(plain(other));
  return answer.documents.every(({name, lines}) => same(rootOfLines(lines, name), documents.get(name)));
})"""


@contextmanager
def previewed(*words):
    """The address of a preview with these words, while it runs."""
    with subprocess.Popen(['./browser', *words], cwd=EXAMPLES, stdout=subprocess.PIPE) as preview:
        try:
            address = preview.stdout.readline().decode().strip()
            if not address:
                raise Failed('it does not start')
            yield address
        finally:
            preview.terminate()


# ---- Who may ask

def answered(address, method='POST', name='edit', words=('delete', 'source', '/1/2'), **headers):
    """The status with which a preview answers a request. The headers are those of its page where none are given."""
    parts = urlsplit(address)
    sent = {'Host': parts.netloc, 'Origin': f'http://{parts.netloc}', **headers}
    content = json.dumps({'number': 0, 'words': words})
    connection = http.client.HTTPConnection(parts.hostname, parts.port)
    try:
        connection.request(method, parts.path + name, content, {key: text for key, text in sent.items() if text})
        return connection.getresponse().status
    finally:
        connection.close()


def stranger_differences():
    """A preview serves its page alone."""
    with previewed('books.xsl', 'books.xml') as address:
        elsewhere = 'http://xt.invalid'
        asked = [
            ('another name of the machine', 403, answered(address, Host='xt.invalid')),
            ('another site', 403, answered(address, Origin=elsewhere)),
            ('a frame without a site', 403, answered(address, Origin='null')),
            ('a program that tells no site', 403, answered(address, Origin=None)),
            ('another address', 403, answered(address[:-2] + '/')),
            ('another site, for the page', 403, answered(address, 'GET', '', Origin=elsewhere)),
            ('another command', 400, answered(address, words=['ask', 'quit'])),
            ('an edit of too few words', 400, answered(address, words=['delete', 'source'])),
            ('the page', 200, answered(address)),
        ]
    for who, wanted, status in asked:
        if status != wanted:
            yield f'examples/browser answers {who} with {status}, and not with {wanted}'


# ---- What the page does

def node(document, path):
    """The expression of a node in the tree of the page."""
    return f"nodeAt(documents.get('{document}'), '{path}')"


class Walk:
    """A page, and what is done on it."""

    def __init__(self, browser, address, width=1440, height=900):
        self.browser = browser
        browser.open(address, width, height)
        browser.wait_for(f'location.href === {json.dumps(address)} && {IS_LOADED}')

    def replace(self, document, path, part, text):
        """Clicks on a part of a node, types another text and ends with Enter."""
        self.browser.click(f'partsIn({node(document, path)})[{part}]')
        self.type(text)

    def type(self, text):
        """Types a text into the field that is open, or will be, and ends with Enter."""
        self.browser.wait_for("document.activeElement.matches('.field')")
        self.browser.type(text)
        self.browser.press('Enter')
        self.browser.value('queue')

    def press(self, key, **more):
        self.browser.press(key, **more)
        self.browser.value('queue')

    def note(self, document, path):
        """What stands at a node as a note."""
        return self.browser.value(f"{node(document, path)}.item.querySelector(':scope > .note')?.innerText")

    def differences(self, done, **wanted):
        """What is not as it is wanted after something was done: expressions by names, and what they give."""
        for name, (expression, value) in wanted.items():
            got = self.browser.value(expression)
            if got != value:
                yield f'examples/browser shows another {name} after {done}: {got!r}, and not {value!r}'

    def result_differences(self, done, reply, result):
        """The reply and the result after an edit."""
        return self.differences(done, reply=(REPLY, reply), result=(RESULT, result))

    def note_differences(self, done, document, path, begin):
        """What stands at a node after an edit."""
        note = self.note(document, path) or ''
        if not note.startswith(begin):
            yield f'examples/browser shows {note!r} at {document} {path} after {done}, and not {begin!r}'


def edit_differences(walk):
    """Edits of the source by keys, and by clicks."""
    walk.replace('source', '/1/4/2/1', 0, '12')
    yield from walk.result_differences('a text', 'ok done', '<ul><li id="b1">Sky</li><li id="b2">Sea</li></ul>')
    cost = walk.browser.value(COST)
    if not re.fullmatch(r'\d+\.\d ms ran \d+ asked \d+ did \d+', cost):
        yield f'examples/browser does not tell what an edit has cost, but {cost!r}'
    walk.browser.value(f"select({node('source', '/1/4')})")
    walk.press('b')
    walk.type('<book id="b3"><title>Sand</title><price>7</price></book>')
    yield from walk.result_differences('an insertion', 'ok done', '<ul><li id="b1">Sky</li><li id="b3" class="cheap">'
                                       '2 of 3: Sand</li><li id="b2">Sea</li></ul>')
    walk.press('ArrowUp', with_alt=True)
    walk.press('@')
    walk.type('id="b0"')
    yield from walk.result_differences('a move', 'ok done', '<ul><li id="b0" class="cheap">1 of 3: Sand</li>'
                                       '<li id="b1">Sky</li><li id="b2">Sea</li></ul>')
    walk.browser.click("document.querySelector('[data-action=delete]')")
    walk.browser.value('queue')
    yield from walk.result_differences('a deletion', 'ok done', '<ul><li id="b1">Sky</li><li id="b2">Sea</li></ul>')


def refusal_differences(walk):
    """A fault in the stylesheet, which is made and mended, and an edit that is not taken."""
    walk.replace('main', '/1/4/2/1', 1, 'title[')
    yield from walk.note_differences('a fault', 'main', '/1/4/2/1', 'S10')
    yield from walk.result_differences('a fault', 'ok refused S10 main/1/4/2/1',
                                       '<ul><li id="b1">Sky</li><li id="b2">Sea</li></ul>')
    yield from walk.differences('a fault', width=(IS_WITHIN, True))
    walk.replace('main', '/1/4/2/1', 1, "concat(title, '!')")
    result = '<ul><li id="b1">Sky!</li><li id="b2">Sea!</li></ul>'
    yield from walk.result_differences('its mending', 'ok done', result)
    yield from walk.differences('its mending', note=("document.querySelector('li .note')", None))
    walk.replace('source', '/1/2', 0, 'p:book')
    yield from walk.note_differences('a name that is refused', 'source', '/1/2', 'no 10')
    yield from walk.result_differences('a name that is refused', 'no 10', result)
    walk.press('Escape')


def text_differences(walk):
    """A text that is markup by itself stays a text, on the page and in the result."""
    walk.replace('source', '/1/2/1/1', 0, HOSTILE)
    written = HOSTILE.replace('<', '&lt;').replace('>', '&gt;')
    item = "document.querySelector('#markup .inner .inner').textContent"
    yield from walk.differences('a text of markup', images=('document.images.length', 0), script=('window.taken', None),
                                result=(item, f'<li id="b1">{written}!</li>'))


def frame_differences(walk):
    """A result of HTML is shown as it looks, and no script runs in it."""
    heading = f"{FRAME}?.querySelector('h1')?.innerText"
    walk.browser.wait_for(f'{heading} !== undefined')
    walk.replace('source', '/1/6', 2, 'Earth')
    walk.browser.wait_for(f"{heading} === 'Earth'")
    walk.browser.value(f"select({node('main', '/2/16/2/4/2')})")
    walk.press('b')
    walk.type(HOSTILE)
    walk.browser.wait_for(f"{FRAME}?.querySelector('script') && {FRAME}.readyState === 'complete'")
    yield from walk.differences('a script in the result', script=('window.taken', None))


def page_differences(program):
    """What the page does otherwise than it should in this browser."""
    with Browser(program) as browser:
        with previewed('books.xsl', 'books.xml') as address:
            walk = Walk(browser, address, width=960)
            yield from edit_differences(walk)
            yield from refusal_differences(walk)
            yield from text_differences(walk)
            yield from walk.differences('all edits', tree=(IS_AS_HELD, True))
        with previewed('build/site.xsl', 'build/site.xml', 'page=soil') as address:
            walk = Walk(browser, address)
            yield from frame_differences(walk)
            walk.replace('text.xsl', '/2/2', 1, 'p[')
            yield from walk.note_differences('a fault in a module', 'text.xsl', '/2/2', 'S11')


def browser_differences(program):
    """What is wrong with the preview in the browser."""
    try:
        yield from stranger_differences()
        yield from page_differences(program)
    except Failed as failed:
        yield f'examples/browser: {failed}'


def picture(program):
    """The bytes of a picture of the page after some edits, of which the last makes a fault. The times are left out:
    other work of the machine counts in them."""
    with Browser(program) as browser, previewed('build/site.xsl', 'build/site.xml', 'page=soil') as address:
        walk = Walk(browser, address, 1300, 760)
        walk.replace('source', '/1/6', 2, 'Earth')
        walk.replace('source', '/1/6/4/1', 0, 'Dig while it is dry.')
        walk.replace('main', '/2/14/4', 1, "key('page', $page")
        browser.point_at(1, 1)
        browser.value("document.querySelectorAll('#log .took').forEach(cell => { cell.textContent = '… ms'; })")
        return browser.picture()
