"""Tests of what examples/browser serves, over a program that only says what a session could say.

    python3 -m unittest

in this folder. No proved program is needed, and no browser.
"""
import base64
import hashlib
import http.client
import json
import os
import re
import sys
import tempfile
import threading
import unittest
from contextlib import ExitStack
from pathlib import Path
from unittest import mock
from urllib.parse import urlsplit

from lib.browsing import previewed

# Takes each command, but for one whose last word asks for another reply. At `end` it ends without one.
PROGRAM = r'''
import sys

held = {'source': ['(a', '-hi', ')a'], 'main': ['(xsl:stylesheet', ')xsl:stylesheet']}
replies = {'fault': 'no 6', 'refusal': 'ok refused S10 main/1'}
shown = {'write': ['(out', ')out'], 'messages': ['-said\\n']}
for line in sys.stdin:
    word, *more = line.rstrip('\n').split(' ')
    last = (more or [''])[-1]
    if word in ('source', 'module', 'insert'):
        while sys.stdin.readline() not in ('.\n', ''):
            pass
    if word == 'quit' or last == 'end':
        sys.exit(7)
    elif word in ('dump', *shown):
        print('\n'.join([*(shown.get(word) or held[last]), '.']), flush=True)
    else:
        print('ran 1 asked 23 did 2' if word == 'stats' else replies.get(last, 'ok done'), flush=True)
'''


class Served(unittest.TestCase):
    """What a preview of the books answers to its page."""

    def setUp(self):
        stack = ExitStack()
        self.addCleanup(stack.close)
        program = Path(stack.enter_context(tempfile.TemporaryDirectory())) / 'program.py'
        program.write_text(PROGRAM)
        stack.enter_context(mock.patch.dict(os.environ, XT=f'{sys.executable} {program}'))
        self.address = urlsplit(stack.enter_context(previewed('books.xsl', 'books.xml')))

    def response(self, method, name, content=None):
        """The status, the headers and the content that are sent."""
        connection = http.client.HTTPConnection(self.address.hostname, self.address.port, timeout=60)
        headers = {'Origin': f'http://{self.address.netloc}'} if method == 'POST' else {}
        try:
            connection.request(method, self.address.path + name, content, headers)
            response = connection.getresponse()
            return response.status, response.headers, response.read()
        finally:
            connection.close()

    def ask(self, name, **request):
        status, _, content = self.response('POST', name, json.dumps(request))
        self.assertEqual(status, 200)
        return json.loads(content)

    def edit(self, number, *words):
        return self.ask('edit', number=number, words=words)

    def test_the_page_runs_its_own_script_alone(self):
        status, headers, content = self.response('GET', '')
        self.assertEqual(status, 200)
        checksum = hashlib.sha256(re.search(b'<script>(.*?)</script>', content, re.S)[1]).digest()
        policy = headers['Content-Security-Policy']
        self.assertIn(f"default-src 'none'; script-src 'sha256-{base64.b64encode(checksum).decode()}'", policy)

    def test_what_is_opened(self):
        answer = self.ask('open')
        held = [(document['name'], document['file'], document['lines'][0]) for document in answer['documents']]
        self.assertEqual(held, [('source', 'books.xml', '(a'), ('main', 'books.xsl', '(xsl:stylesheet')])
        self.assertEqual((answer['number'], answer['counts'], answer['messages']), (0, ['ran 1 asked 23 did 2'], ['said\n']))
        self.assertEqual((answer['result'], answer['refusal']), ({'lines': ['(out', ')out'], 'text': None}, None))

    def test_an_edit(self):
        answer = self.edit(0, 'text', 'source', '/1/1', 'a\nb')
        self.assertEqual((answer['command'], answer['reply']), ('text source /1/1 a\\nb', 'ok done'))
        self.assertEqual((answer['number'], answer['counts']), (1, ['ran 1 asked 23 did 2']))
        self.assertGreater(answer['milliseconds'], 0)

    def test_what_is_inserted(self):
        answer = self.edit(0, 'insert', 'source', '/1/1', '<b c="d"/>e')
        self.assertEqual((answer['reply'], answer['inserted']), ('ok done', ['(b', 'Ac d', ')b', '-e']))
        self.assertIn('mismatched tag', self.edit(1, 'insert', 'source', '/1/1', '<b></c>')['error'])

    def test_one_that_is_not_taken(self):
        answer = self.edit(0, 'rename', 'source', '/1', 'fault')
        self.assertEqual(answer['reply'], 'no 6')
        self.assertIn('the path leads out', answer['meaning'])
        self.assertEqual(self.edit(0, 'delete', 'source', '/1/1')['number'], 1)

    def test_words_that_would_make_another_command(self):
        for words in (['rename', 'source', '/1', 'two words'], ['delete', 'source\nquit', '/1']):
            self.assertIn('no word of a command', self.edit(0, *words)['error'])

    def test_a_refusal_has_its_node(self):
        refusal = self.edit(0, 'attr', 'main', '/1', 'version', 'refusal')['refusal']
        self.assertEqual([refusal[name] for name in ('code', 'module', 'path', 'where')],
                         ['S10', 'main', '/1', '/xsl:stylesheet[1]'])

    def test_of_edits_at_once_one_is_taken(self):
        answers = []
        threads = [threading.Thread(target=lambda: answers.append(self.edit(0, 'delete', 'source', '/1/1')))
                   for _ in range(12)]
        for thread in threads:
            thread.start()
        for thread in threads:
            thread.join()
        self.assertEqual(sorted('error' in answer for answer in answers), [False] + [True] * 11)

    def test_a_program_that_ends(self):
        self.assertIn('ended with status 7', self.edit(0, 'rename', 'source', '/1', 'end')['error'])
        self.assertIn('has ended', self.edit(0, 'delete', 'source', '/1/1')['error'])
        self.assertIn('has ended', self.ask('open')['error'])

    def test_requests_that_are_none(self):
        for content in ('', '[]', '{"number": 0}', '{"words": ["delete", "source", "/1"]}', '[' * 100_000):
            self.assertEqual(self.response('POST', 'edit', content)[0], 400)
        self.assertEqual(self.response('POST', 'ask', '{}')[0], 403)


if __name__ == '__main__':
    unittest.main()
