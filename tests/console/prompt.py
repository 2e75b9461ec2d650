#!/usr/bin/env python3
"""usage: tests/console/prompt.py [RACK]

Talks to ./rack, or to the console that RACK starts, in a terminal of its own, as a person does: answers and
explanations, a line that the terminal cuts, leaving by quit, exit, Ctrl-D and Ctrl-C; and rlwrap, a stand-in for it,
where one is installed.

needs   python3, and what ./rack needs
writes  nothing beside what ./rack writes
takes   seconds
"""
import os
import pty
import select
import signal
import sys
import tempfile
import time

OWN = os.path.join(os.path.dirname(os.path.abspath(__file__)), '..', '..', 'rack')
PROMPT = b'> '
LIMIT = 60.0  # seconds for one answer, at an emulator on a busy machine


def as_a_person():
    """Ctrl-C is heard: a shell that runs this in the background lets its children ignore it."""
    signal.signal(signal.SIGINT, signal.SIG_DFL)


def talk(lines, last, path=''):
    """What the terminal shows of a talk, each line typed at a prompt, `last` at the last one; and the exit status."""
    child, terminal = pty.fork()
    if child == 0:
        as_a_person()
        os.environ['PATH'] = path + os.environ['PATH']
        os.execv(RACK, [RACK])
    shown = b''

    def until(is_enough):
        nonlocal shown
        end = time.time() + LIMIT
        while not is_enough(shown):
            if time.time() > end:
                sys.exit('prompt: no answer after %d s; shown so far: %r' % (LIMIT, shown[-300:]))
            if select.select([terminal], [], [], 0.2)[0]:
                try:
                    more = os.read(terminal, 65536)
                except OSError:
                    more = b''
                if not more:
                    return
                shown += more

    for line in lines + [last]:
        seen = len(shown)
        until(lambda text: text[seen:].endswith(PROMPT))
        os.write(terminal, line)
    until(lambda text: False)
    status = os.waitstatus_to_exitcode(os.waitpid(child, 0)[1])
    return shown.replace(b'\r\n', b'\n').decode('utf-8', 'replace'), status


def typed(lines):
    """What is answered to typed lines where the answers go into a pipe: there is no prompt to wait for."""
    child, terminal = pty.fork()
    if child == 0:
        as_a_person()
        os.execv('/bin/sh', ['sh', '-c', '"$0" 2> /dev/null | cat', RACK])
    shown = b''
    os.write(terminal, b''.join(lines) + b'\x04')
    while True:
        try:
            more = os.read(terminal, 65536)
        except OSError:
            more = b''
        if not more:
            break
        shown += more
    os.waitpid(child, 0)
    return shown.replace(b'\r\n', b'\n').decode('utf-8', 'replace')


failed = 0


def check(name, is_so, shown):
    global failed
    if not is_so:
        failed += 1
        print('prompt: %s; the terminal showed: %s' % (name, shown[-600:]))


if sys.argv[1:] in (['-h'], ['--help']):
    print(__doc__.strip())
    sys.exit(0)
RACK = os.path.abspath((sys.argv + [OWN])[1])
if len(sys.argv) > 2 or not os.access(RACK, os.X_OK):
    sys.exit('prompt: one program at most, and that may be started: %s (--help tells more)' % ' '.join(sys.argv[1:]))
shown, status = talk([b'grant\n', b'poke 0 abc\n', b'poke 0 85h\n'], b'quit\n')
check('quit leaves with status 0', status == 0, shown)
check('a refusal is explained', 'refused 6\nline 1: refused by 6: grant with no entitled channel\n' in shown, shown)
check('why nobody is entitled', '    channel 3: its line is not active, its request bit is clear\n' in shown, shown)
check('an error is explained', "error\nline 2: 'abc' is no HEX" in shown and '    poke ADDR HEX' in shown, shown)
check('nothing behind quit', shown.endswith('> quit\n'), shown)
shown, status = talk([b'feed ' + b'00' * 3000 + b'\n', b'show\n', b'fresh' + b' ' * 4089 + b'\n'], b'exit\n')
check('a line that the terminal cuts is refused', '\nrack: a terminal cuts a line at 4095 characters: give longer ones in a file\nerror\n> ' in shown, shown)
check('and nothing of it is queued', 'queue 0 bytes' in shown, shown)
check('one that fits is done', shown.endswith('\nok\n> exit\n'), shown)
shown = typed([b'feed ' + b'00' * 3000 + b'\n', b'queue\n'])
# what is typed behind it is echoed before or behind its answer
check('a line that the terminal cuts is refused where the answers go elsewhere, too', shown.endswith(('error\nbytes -\n', 'error\nqueue\nbytes -\n')), shown)
shown, status = talk([b'fresh\n'], b'\x04')
check('Ctrl-D leaves on a line of its own, with status 0', status == 0 and shown.endswith('> \n'), shown)
shown, status = talk([b'fresh\n'], b'\x03')
check('Ctrl-C leaves on a line of its own, with status 130', status == 130 and shown.endswith('> ^C\n'), shown)
with tempfile.TemporaryDirectory() as folder:
    with open(folder + '/rlwrap', 'w') as stand_in:
        stand_in.write('#!/bin/sh\necho "by rlwrap"\nexec "$@"\n')
    os.chmod(folder + '/rlwrap', 0o755)
    shown, status = talk([b'fresh\n'], b'quit\n', folder + ':')
    check('rlwrap is used, and the status told through it', status == 0 and shown.startswith('by rlwrap\n'), shown)
print('prompt: 12 things tried in a terminal, %d failed' % failed)
sys.exit(1 if failed else 0)
