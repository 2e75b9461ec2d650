#!/usr/bin/env python3
"""usage: tests/console/traced.py [CASES [SEED]]

Traces and logs random runs and rounds of ./rack. With a trace and a log every answer must be
what it is without; the records are as many as the transfers, the states on the lines as many
as the answer's, each with its S1; and the log of each service, cut from the file, must be accepted from the
state and the memory at its grant, and leave the state and the memory that the service left.

needs   python3, and what ./rack needs
writes  nothing beside what ./rack writes
takes   seconds
"""
import os
import random
import re
import subprocess
import sys
import tempfile

RACK = os.path.join(os.path.dirname(os.path.abspath(__file__)), '..', '..', 'rack')
LINE = re.compile(r'# service (\d+) channel ([0-3]) (verify|write|read|memory-to-memory) ([0-9a-f]{4})h'
                  r'(?: to ([0-9a-f]{4})h)?(?: byte ([0-9a-f]{2})h)?, (\d+) states( with S1)?(?:,( TC)?( EOP)?( last)?)?')
MOST = 64000
KINDS = ['verify', 'write', 'read', 'memory-to-memory']


def word(register, n):
    return [f'write {register} {n & 255}', f'write {register} {n >> 8}']


def setup(dice):
    """a chip with all that a service may meet"""
    lines = [f'fresh {dice.randrange(2)}', 'empty', f'feed {dice.randbytes(dice.randrange(1, 60)).hex()}',
             f'room {dice.choice([0, 3, 60, 60])} 0xee', f'waits {dice.choice([0, 0, 1, 255])}']
    command = dice.choice([0, 0x10, 0x08, 0x18]) | dice.choice([0, 0, 1, 3])
    lines.append(f'write 8 {command}')
    for n in range(4):
        low = dice.choice([0xfffd, 0x01fe, 0x0000, dice.randrange(65536)])
        lines += word(2 * n, low) + word(2 * n + 1, dice.choice([0, 1, 2, 5, 20]))
        mode = dice.choice([0x00, 0x40, 0x40, 0x80, 0x80, 0xc0 if dice.random() < 0.2 else 0x80])
        again = dice.choice([0, 0x10])
        if command & 1 and n == 1 and dice.random() < 0.95:
            again = 0x10  # else the second copy of a round goes on from FFFFh: 65,536 transfers
        lines.append(f'write 11 {mode | dice.choice([0, 4, 8]) | again | dice.choice([0, 0x20]) | n}')
    lines.append(f'write 15 {dice.choice([0, 0, dice.randrange(16)])}')
    for n in range(4):
        if dice.random() < 0.3:
            lines.append(f'write 9 {4 | n}')
    return lines + [f'pins {dice.randrange(16)}']


def rack(lines, folder):
    ran = subprocess.run([RACK], input='\n'.join(lines) + '\n', capture_output=True, text=True, cwd=folder)
    if ran.returncode:
        sys.exit(f'traced: ./rack has status {ran.returncode}: {ran.stderr[:300]}')
    return ran.stdout.split('\n')[:-1]


def asked(dice):
    """a round, or a grant and a run"""
    if dice.random() < 0.6:
        return [f'round {dice.choice([1, 2, 3, 9])}']
    return ['grant', f'run {dice.choice([0, 1, 3, 50, 65536])} {dice.choice([0, 0, 0, 1, 2, 7])}']


ENDING = ['full', 'peek 0 65536']


def said_by(line):
    """the record that a line tells, and its service and states"""
    found = LINE.fullmatch(line)
    if not found:
        sys.exit(f'traced: no line of a transfer: {line}')
    service, channel, kind, first, second, byte, states, s1, tc, eop, last = found.groups()
    first, second = int(first, 16), int(second or '0', 16)
    flags = bool(tc) + 2 * bool(eop) + 4 * bool(last)
    record = bytes([int(channel), KINDS.index(kind), first & 255, first >> 8, second & 255, second >> 8, int(byte or '0', 16), flags])
    return int(service), record, int(states), bool(s1)


def fits(record, states, s1, setting):
    """whether the states of a line are those of its transfer, with S1 or not"""
    waits = int(re.search(r'waits (\d+)', setting).group(1))
    command = int(re.search(r'write 8 (\d+)', setting).group(1))
    if record[1] == 3:
        return states == 8 + 2 * waits and not s1
    return states == (2 if command & 8 else 3) + s1 + waits


def cut(answer, lines, log, setting, where):
    """the log of each service that was begun"""
    wanted = int(re.search(r'transfers=(\d+)', answer).group(1)) if 'transfers' in answer else 0
    states = int(re.search(r'states=(\d+)', answer).group(1)) if 'states' in answer else 0
    told = [said_by(line) for line in lines]
    if len(told) != wanted or len(log) != 8 * wanted:
        sys.exit(f'traced: {where}: {len(told)} lines and {len(log)} bytes of a log for {wanted} transfers')
    if sum(states for _, _, states, _ in told) != states:
        sys.exit(f'traced: {where}: the states of the lines are not {states} in all')
    if not all(fits(record, states, s1, setting) for _, record, states, s1 in told):
        sys.exit(f'traced: {where}: the states of a line are not those of its transfer')
    if b''.join(record for _, record, _, _ in told) != log:
        sys.exit(f'traced: {where}: a line and its record differ')
    begun = re.search(r'services=(\d+),(\d+),(\d+),(\d+)', answer)
    services = sum(map(int, begun.groups())) if begun else 1
    parts = [b''] * services
    for service, record, _, _ in told:
        parts[service - 1] += record
    return parts


def main():
    cases = int(sys.argv[1]) if len(sys.argv) > 1 else 400
    dice = random.Random(int(sys.argv[2]) if len(sys.argv) > 2 else 9517)
    made = [(setup(dice), asked(dice)) for _ in range(cases)]
    plain, traced = [], ['trace on']
    for i, (lines, command) in enumerate(made):
        plain += lines + command + ENDING
        traced += [f'log {i}.log'] + lines + command + ENDING
    with tempfile.TemporaryDirectory() as folder:
        bare = rack(plain, folder)
        shown = rack(traced, folder)
        answers = [line for line in shown if not line.startswith('# ')]
        rest = answers[1:]
        judged, expected, services, transfers, i = [], [], 0, 0, 1
        for n, (lines, command) in enumerate(made):
            size = len(lines) + len(command) + len(ENDING)
            mine, rest = rest[1:1 + size], rest[1 + size:]
            if mine != bare[:size]:
                sys.exit(f'traced: case {n} answers otherwise with a trace: {command}')
            bare = bare[size:]
            # what was shown of this case: its lines stand before the answer of its command
            i += 1 + len(lines) + len(command) - 1
            first = i
            while shown[i].startswith('# '):
                i += 1
            between = shown[first:i]
            answer = shown[i]
            i += 1 + len(ENDING)
            is_granted = command[0] != 'grant' or mine[len(lines)].startswith('channel')
            with open(os.path.join(folder, f'{n}.log'), 'rb') as file:
                parts = cut(answer, between, file.read(), '\n'.join(lines), f'case {n}')
            if not is_granted:
                parts = []
            judged += lines
            expected += mine[:len(lines)]
            for k, part in enumerate(parts):
                judged.append('grant')
                expected.append(None)
                # the console takes 70,000 bytes at once: a longer log in parts of whole records
                for at in range(0, len(part) or 1, MOST):
                    with open(os.path.join(folder, f'{n}.{k}.{at}'), 'wb') as file:
                        file.write(part[at:at + MOST])
                    judged.append(f'f.judge {n}.{k}.{at}')
                    expected.append(f'accepted records={len(part[at:at + MOST]) // 8}')
                services += 1
                transfers += len(part) // 8
            if answer.startswith('dropped'):
                judged.append('run 0 0')
                expected.append(None)
            judged += ENDING
            expected += mine[-2:]
        for n, (line, want, got) in enumerate(zip(judged, expected, rack(judged, folder))):
            if want is not None and want != got:
                sys.exit(f'traced: {line}: {got[:200]}, where {want[:200]} was expected')
    print(f'traced: {cases} runs and rounds, {services} services, {transfers} transfers: as without a trace, and accepted')


main()
