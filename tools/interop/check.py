#!/usr/bin/python3
"""Holds `dissect` and `rewrite` against scapy, tshark and a model. See README.md beside this file.

usage: check.py [FRAMES] [SEED]
"""
import random
import re
import subprocess
import sys
import tempfile
import xml.etree.ElementTree as ElementTree
from pathlib import Path

from scapy.all import Ether, raw
from scapy.contrib import ethercat
from scapy.utils import RawPcapWriter
import scapy

import model

CRATES = Path(__file__).resolve().parents[2] / 'crates'
LAYERS = {1: ethercat.EtherCatAPRD, 2: ethercat.EtherCatAPWR, 3: ethercat.EtherCatAPRW,
          4: ethercat.EtherCatFPRD, 5: ethercat.EtherCatFPWR, 6: ethercat.EtherCatFPRW,
          7: ethercat.EtherCatBRD, 8: ethercat.EtherCatBWR,
          10: ethercat.EtherCatLRD, 11: ethercat.EtherCatLWR, 12: ethercat.EtherCatLRW}


# what tshark calls the fields of a datagram; its data it shows in many ways, so only their length is compared
FIELDS = ('ecat.idx', 'ecat.adp', 'ecat.ado', 'ecat.lad', 'ecat.subframe.length', 'ecat.int', 'ecat.cnt')


def run(program, text):
    done = subprocess.run([str(CRATES / program / 'out' / program)], input=text.encode(), capture_output=True, check=True)
    return done.stdout.decode()


def datagram(rng, room, commands):
    """A random datagram that takes at most `room` bytes."""
    most = room - 12
    size = rng.choice([1, 2, 4, 8, 16, rng.randint(1, most), most])
    return dict(command=rng.choice(commands), index=rng.randrange(256), adp=rng.randrange(65536),
                ado=rng.randrange(65536), irq=rng.randrange(65536), data=rng.randbytes(min(size, most)),
                counter=rng.randrange(65536))


def datagrams(rng, commands):
    """One or some of them that fit into one frame, with their offsets."""
    found, room = [], 1498
    for _ in range(rng.choice([1, 1, 2, 3, 5, 10])):
        if room < 13:
            break
        found.append(datagram(rng, room, commands))
        room -= len(found[-1]['data']) + 12
    at = 16
    for d in found:
        d['at'] = at
        at += len(d['data']) + 12
    return found


def by_scapy(found):
    """The frame that scapy's EtherCAT layer makes of them."""
    packet = Ether(dst='ff:ff:ff:ff:ff:ff', src='02:00:00:00:00:01', type=0x88a4) / ethercat.EtherCat(type=1)
    for d in found:
        fields = dict(idx=d['index'], irq=d['irq'], data=list(d['data']), wkc=d['counter'])
        if d['command'] >= 10:
            fields['adr'] = d['ado'] << 16 | d['adp']
        else:
            fields.update(adp=d['adp'], ado=d['ado'])
        packet /= LAYERS[d['command']](**fields)
    return raw(packet)


def scapy_to_ours(rng, count):
    """Frames that scapy built are read by `dissect` with the fields that scapy was given."""
    rows, expected, commands = [], [], set()
    for _ in range(count):
        found = datagrams(rng, list(LAYERS))
        commands.update(d['command'] for d in found)
        rows.append(by_scapy(found).hex())
        expected += [model.line(d) for d in found]
    told = run('dissect', '\n'.join(rows) + '\n').splitlines()
    wrong = sum(a != b for a, b in zip(told, expected)) + abs(len(told) - len(expected))
    print(f'scapy to ours: {count} frames, {len(expected)} datagrams, {len(commands)} commands, {wrong} differ')
    return wrong


def by_tshark(path):
    """The datagrams of each frame as tshark sees them, and its complaints."""
    xml = subprocess.run(['tshark', '-r', path, '-T', 'pdml'], capture_output=True, check=True).stdout
    frames, complaints = [], []
    for packet in ElementTree.fromstring(xml):
        found = []
        for field in packet.iter():
            name, shown = field.get('name', ''), field.get('show', '')
            if name.startswith('_ws.'):
                complaints.append(f'{name} {field.get("showname", "")}')
            if name in ('ecatf.reserved', 'ecat.subframe.reserved', 'ecat.subframe.circulating') and int(shown, 0):
                complaints.append(f'{name} {shown}')
            if name == 'ecat.cmd':
                found.append({'at': int(field.get('pos')), 'ecat.cmd': int(shown, 0)})
            elif name in FIELDS:
                found[-1][name] = int(shown, 0)
        frames.append(found)
    return frames, complaints


def parsed(row):
    """A line of `dissect` in tshark's terms."""
    m = re.fullmatch(r'at (\d+) (\S+) (\S+) index (\S+) irq (\S+) data (\S+) counter (\d+)', row)
    codes = {name: code for code, name in model.NAMES.items()}
    d = {'at': int(m[1]), 'ecat.cmd': codes[m[2]], 'ecat.idx': int(m[4], 16), 'ecat.int': int(m[5], 16),
         'ecat.subframe.length': len(m[6]) // 2, 'ecat.cnt': int(m[7])}
    if ':' in m[3]:
        d['ecat.adp'], d['ecat.ado'] = (int(x, 16) for x in m[3].split(':'))
    else:
        d['ecat.lad'] = int(m[3], 16)
    return d


def ours_to_tshark(rng, count):
    """Frames that our writer made are dissected by tshark with the fields that `dissect` tells."""
    lists = [datagrams(rng, list(model.NAMES)) for _ in range(count)]
    rows = run('rewrite', ''.join(model.written(found).hex() + '\n' for found in lists)).splitlines()
    with tempfile.NamedTemporaryFile(suffix='.pcap') as file:
        writer = RawPcapWriter(file.name, linktype=1)
        for row in rows:
            writer.write(bytes.fromhex(row))
        writer.close()
        seen, complaints = by_tshark(file.name)
    told = [parsed(r) for r in run('dissect', '\n'.join(rows) + '\n').splitlines()]
    flat = [d for theirs in seen for d in theirs]
    wrong = sum(a != b for a, b in zip(told, flat)) + abs(len(told) - len(flat)) + abs(len(rows) - len(lists))
    for a, b in zip(told, flat):
        if a != b:
            print('differ:', a, b)
            break
    for c in complaints[:5]:
        print('tshark complains:', c)
    print(f'ours to tshark: {len(rows)} frames, {len(flat)} datagrams, {wrong} differ, {len(complaints)} complaints')
    return wrong + len(complaints)


def damaged(rng, frame):
    """The frame with something changed, cut or added."""
    frame = bytearray(frame)
    for _ in range(rng.choice([0, 1, 1, 1, 2, 3])):
        what = rng.randrange(6)
        if what == 0:
            places = [12, 13, 14, 15, 16, 22, 23, rng.randrange(len(frame))]
            frame[rng.choice([p for p in places if p < len(frame)])] ^= 1 << rng.randrange(8)
        elif what == 1:
            del frame[rng.randint(1, len(frame)):]
        elif what == 2:
            frame += rng.randbytes(rng.choice([1, 5, 60, 1500]))
        elif what == 3 and len(frame) > 16:
            frame[14:16] = (rng.choice([0, rng.randrange(2048), len(frame) - 16]) & 0x7ff | 0x1000).to_bytes(2, 'little')
        elif what == 4 and len(frame) > 23:
            frame[22:24] = rng.choice([0, 1, 1486, 1487, 2047, 0x8000, rng.randrange(65536)]).to_bytes(2, 'little')
        elif what == 5 and len(frame) > 16:
            frame[16] = rng.choice([9, 13, 14, 255, rng.randrange(256)])
    return bytes(frame)


def spelled(rng, frame):
    """A frame as a line: with blanks, upper case, comments, now and then with a slip."""
    text = frame.hex()
    if rng.random() < 0.3:
        text = text.upper()
    if rng.random() < 0.3:
        text = ' '.join(text[i:i + 2] for i in range(0, len(text), 2))
    slip = rng.randrange(40)
    if slip == 0:
        text = text[:-1]
    elif slip == 1:
        text = text + 'g'
    elif slip == 2:
        text = '  \t'
    elif slip == 3:
        text += ' # a comment'
    return text


def against_the_model(rng, count):
    """On sound and damaged frames both programs print what the model says."""
    rows = [spelled(rng, damaged(rng, model.written(datagrams(rng, list(model.NAMES))))) for _ in range(count)]
    text = '\n'.join(rows) + '\n'
    wrong, answers = 0, set()
    for program, says in ('dissect', model.dissected), ('rewrite', model.rewritten):
        told, expected = run(program, text).splitlines(), says(text).splitlines()
        wrong += sum(a != b for a, b in zip(told, expected)) + abs(len(told) - len(expected))
        answers.update(' '.join(r.split()[:2]) for r in expected if r.startswith('refused'))
    print(f'against the model: {count} lines, refusals {sorted(answers)}, {wrong} answers differ')
    return wrong


def main():
    count = int(sys.argv[1]) if len(sys.argv) > 1 else 500
    seed = int(sys.argv[2]) if len(sys.argv) > 2 else 1
    rng = random.Random(seed)
    version = subprocess.run(['tshark', '--version'], capture_output=True, check=True).stdout.decode().split('\n')[0]
    print(f'scapy {scapy.VERSION}, {version.split(".Running")[0]}, seed {seed}')
    wrong = scapy_to_ours(rng, count) + ours_to_tshark(rng, count) + against_the_model(rng, 10 * count)
    sys.exit(1 if wrong else 0)


main()
