#!/usr/bin/env python3
"""Lets the built program create and delete records for a long time. In each round fifty events are created, listed for
three viewers, and deleted. The policy of an event reads a guarded field of its host, so the cached answer for the
event's label depends on another label. A second part does the same without the lists. After the first tenth of each
part, the program's memory must not grow by more than 256 KiB. Arguments: the program, and the number of creates and
deletes (100,000 by default). Prints each failed case, then a count."""
import os
import sys
import tempfile

from support import proved
from support.serving import served

WORDS = proved.words(requests={'metavar': 'NUMBER', 'nargs': '?', 'type': int, 'default': 100000,
                               'help': 'how many creates and deletes (%(default)s)'})
PROGRAM = proved.program(WORDS.program)
ROUND = 100             # creates and deletes in one round
MOST = 1 << 18          # bytes by which memory may grow
APPLICATION = r"""(app (viewer Person)

 (model Person (fields (name text) (open bool))
  (group (guards (name "somebody")) (policy (or (get Person open this) (eq this viewer)))))

 (model Event (fields (title text) (host (ref Person)))
  (group (guards (title "private"))
   (policy (or (eq (get Event host this) viewer) (eq (get Person name (get Event host this)) "Ann")))))

 (view post "/join" (params (name text) (open bool))
  (create p Person (set (name name) (open open)) (put p)))

 (view post "/add" (params (title text))
  (create e Event (set (title title) (host viewer)) (put e)))

 (view post "/remove" (params (event (ref Event)))
  (delete Event event) (put "removed"))

 (view get "/" (params)
  (for (from ((e Event)) true key) (put (get Event title e)) (put ";"))))
"""
ANN, BOB = 4096, 8192   # the records that the first two POSTs create
HIDDEN = b'private;'     # what viewers see of an event that they don't host
SESSIONS = 'ann %d\nbob %d\n' % (ANN, BOB)


def get(who):
    return b'GET / HTTP/1.1\r\nHost: a\r\n%s\r\n' % (b'Cookie: session=%s\r\n' % who if who else b'')


def post(who, path, form):
    head = b'POST %s HTTP/1.1\r\nHost: a\r\nCookie: session=%s\r\nContent-Type: application/x-www-form-urlencoded\r\n'
    return head % (path, who) + b'Content-Length: %d\r\n\r\n%s' % (len(form), form)


LISTS = [get(b'ann'), get(b'bob'), get(b'')]


class Client:
    """A client that opens a new connection for each list of requests."""

    def __init__(self, run):
        self.run, self.line = run, None

    def ask(self, requests):
        """Returns the bodies of the replies. Exits if a reply isn't 200."""
        if self.line:
            self.line.close()
        self.line = self.run.connect()
        reader = self.line.makefile('rb')
        self.line.sendall(b''.join(requests))
        return [self.reply(reader) for _ in requests]

    @staticmethod
    def reply(reader):
        status, length = reader.readline().split(), 0
        while (head := reader.readline()) not in (b'\r\n', b''):
            if head.lower().startswith(b'content-length:'):
                length = int(head.partition(b':')[2])
        body = reader.read(length)
        if status[1:2] != [b'200']:
            sys.exit('FAILED a request was answered with %r %r' % (status, body[:200]))
        return body


def memory(process):
    """Returns the bytes of memory that the process holds."""
    with open('/proc/%d/status' % process, encoding='ascii') as status:
        return next(int(line.split()[1]) * 1024 for line in status if line.startswith('VmRSS'))


def churn(client, first, requests, lists):
    """Runs rounds of creates, lists and deletes. The first create is the request with the number `first`. Returns how
    many lists of requests got wrong replies."""
    wrong, half = 0, ROUND // 2
    for number in range(first, first + requests, ROUND):
        events = [b'%d' % (at * 4096 + 1) for at in range(number, number + half)]
        wrong += client.ask([post(b'ann', b'/add', b'title=Tea')] * half) != events
        if lists:
            wrong += client.ask(LISTS) != [b'Tea;' * half, HIDDEN * half, HIDDEN * half]
        wrong += client.ask([post(b'ann', b'/remove', b'event=' + event) for event in events]) != [b'removed'] * half
    return wrong


def grown(run, client, first, requests, lists):
    """Returns how many lists of requests got wrong replies, and by how many bytes memory grew after the first tenth."""
    begun = requests // 10 // ROUND * ROUND
    wrong = churn(client, first, begun, lists)
    before = memory(run.run.pid)
    wrong += churn(client, first + begun, requests - begun, lists)
    return wrong, memory(run.run.pid) - before


def main():
    requests = WORDS.requests // 2 // ROUND * ROUND
    failed = 0
    with tempfile.TemporaryDirectory() as folder:
        with open(os.path.join(folder, 'app'), 'w', encoding='utf-8') as file:
            file.write(APPLICATION)
        with open(os.path.join(folder, 'sessions'), 'w', encoding='utf-8') as file:
            file.write(SESSIONS)
        with served(PROGRAM, 'app', 1000000, folder, ('--sessions', 'sessions')) as run:
            client = Client(run)
            people = client.ask([post(b'ann', b'/join', b'name=Ann'), post(b'ann', b'/join', b'name=Bob&open=1')])
            if people != [b'%d' % ANN, b'%d' % BOB]:
                sys.exit('FAILED the first two records are %r' % people)
            for first, lists, name in ((3, True, 'lists between'), (3 + requests, False, 'no list')):
                wrong, more = grown(run, client, first, requests, lists)
                print('%s: memory grew by %d bytes over the last nine tenths of %d requests' % (name, more, requests))
                if wrong:
                    print('FAILED %s: %d lists of requests got wrong replies' % (name, wrong))
                if more > MOST:
                    print('FAILED %s: memory may grow by at most %d bytes' % (name, MOST))
                failed += bool(wrong) + (more > MOST)
    print('%d passed, %d failed' % (4 - failed, failed))
    sys.exit(1 if failed else 0)


if __name__ == '__main__':
    main()
