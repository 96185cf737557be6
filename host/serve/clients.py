"""Python's imaplib as a client of the server, over the tunnel and over a socket.

usage: clients.py SERVE TABLE PORT    (host/serve/clients calls it)

The folders that the client reports are those of the table.
"""
import imaplib
import re
import shlex
import sys

FOLDERS = ['Customers/ABC', 'INBOX', 'Quo"te \\ back', 'Sent', 'Trash (old) {3}']
SUBSCRIBED = ['Customers/ABC', 'INBOX', 'Quo"te \\ back']
LINE = re.compile(rb'\((?P<attributes>[^)]*)\) "/" "(?P<name>.*)"')


def folders(answer):
    """The names of an answer, and its attributes by name."""
    status, lines = answer
    assert status == 'OK', answer
    found = {}
    for line in lines:
        if line is None:
            continue
        match = LINE.fullmatch(line)
        assert match, line
        name = re.sub(r'\\(.)', r'\1', match['name'].decode())
        found[name] = match['attributes'].decode().split()
    return found


def literal(client, word, arguments, name):
    """A command whose last argument is a literal."""
    client.literal = name.encode()
    status, lines = client._simple_command(word, *arguments)
    return client._untagged_response(status, lines, word)


def quoted(name):
    return '"%s"' % name.replace('\\', '\\\\').replace('"', '\\"')


def converse(client):
    assert client.state == 'AUTH', client.state
    assert {'IMAP4REV1', 'LIST-EXTENDED', 'SPECIAL-USE', 'CHILDREN', 'NAMESPACE', 'ID'} == set(client.capabilities)
    assert client.noop()[0] == 'OK'
    assert client.namespace() == ('OK', [b'(("" "/")) NIL NIL'])

    assert sorted(folders(client.list())) == FOLDERS
    assert sorted(folders(client.lsub())) == SUBSCRIBED
    # The parent that is no mailbox is listed by its level.
    level = folders(client.list(pattern='%'))
    assert sorted(level) == sorted(['Customers'] + FOLDERS[1:]), level
    assert level['Customers'] == ['\\NonExistent', '\\HasChildren'], level
    assert sorted(folders(client.list('Customers/', '%'))) == ['Customers/ABC']
    uses = folders(client._untagged_response(*client._simple_command('LIST', '(SPECIAL-USE)', '""', '*'), 'LIST'))
    assert uses == {'Sent': ['\\Sent'], 'Trash (old) {3}': ['\\Trash']}, uses

    # Each name is found by itself, in quotes and as a literal.
    for name in FOLDERS:
        assert list(folders(client.list(pattern=quoted(name)))) == [name]
        assert list(folders(literal(client, 'LIST', ['""'], name))) == [name]

    # Subscriptions.
    for name in ['Customers/"New" \\', 'Trash (old) {3}']:
        assert client.subscribe(quoted(name))[0] == 'OK'
        assert name in folders(client.lsub())
        assert client.unsubscribe(quoted(name))[0] == 'OK'
        assert name not in folders(client.lsub())
    client.literal = b'Literal/x'
    assert client._simple_command('SUBSCRIBE')[0] == 'OK'
    assert 'Literal/x' in folders(client.lsub())
    client.literal = b'Literal/x'
    assert client._simple_command('UNSUBSCRIBE')[0] == 'OK'
    assert sorted(folders(client.lsub())) == SUBSCRIBED
    status, lines = client.subscribe('"no*name"')
    assert status == 'NO' and lines[0].startswith(b'[refusal 14] '), lines

    # What is not served, and what is off the grammar.
    for answer in [client.select(), client.status('INBOX', '(MESSAGES)'), client.create('x')]:
        assert answer[0] == 'NO' and b'no messages are served here' in answer[1][0], answer
    try:
        client._simple_command('LIST', '(COLOUR)', '""', '*')
        raise AssertionError('an unknown option is taken')
    except imaplib.IMAP4.error as error:
        assert '[refusal 6] ' in str(error), error
    assert sorted(folders(client.list())) == FOLDERS
    assert client.logout()[0] == 'BYE'


def main():
    serve, table, port = sys.argv[1:]
    converse(imaplib.IMAP4_stream('%s %s 2>/dev/null' % (shlex.quote(serve), shlex.quote(table))))
    converse(imaplib.IMAP4('127.0.0.1', int(port)))


main()
