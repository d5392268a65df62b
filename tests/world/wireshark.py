#!/usr/bin/env python3
"""Has Wireshark (`tshark`) read the mobility management PDUs of the worked cases (tests/program/rows): uplink ones in frames of its own TETRA
protocol, downlink ones in GSMTAP frames. It must find the same PDU types, numbers and identities as the independent reading
(tests/reading/). Of a list of groups it shows the first one, and how many there are. A PDU that is longer than a frame, or that the
reading refuses, is left out. Where tshark is not installed the test prints so. Prints what was read, the first cases that fail, and
last 'N passed, M failed'.
Usage: tests/run wireshark"""
import pathlib
import struct
import tempfile
import xml.etree.ElementTree

import reading
import rows
from reading import bit_string
from reading_pdus import Refused, read_down, read_up
from running import compare
from testing import Count
from tools import ran

# UDP ports, the link type of an IP packet, and the logical channel SCH/F, which has so many bits uplink
GSMTAP, TETRA, RAW, CHANNEL, FRAME = 4729, 7074, 101, 5, 268
# Before a PDU: basic link without acknowledgement, and mobility management
LINK = '0010' '001'
NAMES = {'detach': 'u_Itsi_Detach', 'demand': 'u_Location_Update_Demand', 'groups': 'u_Attach_Detach_Group_Identity',
         'accept': 'd_Location_Update_Accept', 'reject': 'd_Location_Update_Reject', 'acknowledgement': 'd_Attach_Detach_Group_Identity_Ack'}


# Frames

def octets(bits):
    bits += '0' * (-len(bits) % 8)
    return int(bits, 2).to_bytes(len(bits) // 8, 'big')


def uplink(ssi, bits):
    """A MAC-DATA PDU on SCH/F that was received well, in a frame of Wireshark's TETRA protocol, or None if it has no room."""
    mac = '000000' + ssi + '0' + '111111' + LINK + bits
    return (TETRA, bytes([2]) + bytes(9) + struct.pack('<I', 8 << 2 | 1) + octets(mac.ljust(FRAME, '0'))) if len(mac) <= FRAME else None


def downlink(ssi, bits):
    """A MAC-RESOURCE PDU, in a GSMTAP frame."""
    mac = '0000000' + '111111' + '001' + ssi + '000' + LINK + bits
    return GSMTAP, struct.pack('>BBBBHBBIBBBB', 2, 4, 5, 0, 0, 0, 0, 0, CHANNEL, 0, 0, 0) + octets(mac)


def packet(port, data):
    udp = struct.pack('>HHHH', port, port, 8 + len(data), 0) + data
    return struct.pack('>BBHHHBBH4s4s', 0x45, 0, 20 + len(udp), 0, 0, 64, 17, 0, bytes(4), bytes(4)) + udp


def read_by_wireshark(frames):
    """Of each frame the fields that Wireshark finds: names with what they show."""
    with tempfile.TemporaryDirectory() as folder:
        path = pathlib.Path(folder) / 'frames.pcap'
        packets = [packet(*frame) for frame in frames]
        path.write_bytes(struct.pack('<IHHiIII', 0xa1b2c3d4, 2, 4, 0, 0, 65535, RAW)
                         + b''.join(struct.pack('<IIII', 0, 0, len(one), len(one)) + one for one in packets))
        found = ran('tshark', '-r', path, '-T', 'pdml')
    return [list(fields_of(one)) for one in xml.etree.ElementTree.fromstring(found)]


def fields_of(found):
    return ((field.get('name').removeprefix('tetra.'), field.get('show')) for field in found.iter('field'))


# What is compared

def identity_of(fields):
    """The bits of an address: of the group, and of its network."""
    return tuple(format(int(fields[name].replace(':', ''), 16), '024b') if name in fields else '' for name in ('gssi', 'extension'))


def number_of(fields, name):
    return int(fields.get(name, '0'))


def flag_of(fields, name):
    return fields[name] in ('1', 'True')


def seen(fields):
    """The SSI that a frame is for, and what Wireshark found in its PDU."""
    at = [name for name, _ in fields].index('mm')
    return format(int(dict(fields[:at])['ssi']), '024b'), *seen_in(dict(reversed(fields[at:])))


def seen_in(of):
    name = next(name for name, full in NAMES.items() if f'{full}_element' in of)
    if name in ('demand', 'accept'):
        return name, number_of(of, 'location_update_type')
    if name == 'reject':
        return name, number_of(of, 'location_update_type'), number_of(of, 'reject_cause')
    if name == 'detach':
        return name,
    flag = 'group_identity_attach_detach_' + ('mode' if name == 'groups' else 'accept')
    details = {'groups': ['class_of_usage', 'detach_uplike'], 'acknowledgement': ['lifetime', 'class_of_usage', 'detach_downlike']}[name]
    first = [(flag_of(of, 'attach_detach_identifier'), *(int(of[one]) for one in details if one in of), *identity_of(of))] if 'gssi' in of else []
    return name, flag_of(of, flag), number_of(of, 'repeat_num'), first


def told(items):
    """How many there are, and the first."""
    return len(items), [(one.detaches, int(one.detail, 2), one.gssi, one.extension) for one in items[:1]]


def wanted_up(bits):
    name, value = read_up(bits)
    return (name, value) if name == 'demand' else (name,) if name == 'detach' else (name, value[0], *told(value[1]))


def wanted_down(bits):
    name, value = read_down(bits)
    if name != 'acknowledgement':
        return name, *value
    return name, value[0], len(value[1]), [(detaches, *detail, *address) for detaches, detail, *address in value[1][:1]]


# The PDUs of the rows

def exchanges():
    """Each line of a radio in the rows: its SSI, its PDU, and the PDU that answers it or None."""
    for file in sorted(rows.FOLDER.glob('*.txt')):
        for _, given, _ in rows.cases(file.read_text()):
            lines = [line.encode() for line in given]
            for line, (answer, is_bad) in zip(lines, reading.answered(reading.Register(), 1, lines)):
                words, last = line.split(b' '), answer[0].split(' ')[-1] if answer else ''
                if len(words) == 6 and words[2] == b'mm' and not is_bad:
                    yield reading.identity(words[3])[24:], bit_string(words[5]), bit_string(last.encode()) if ':' in last else None


def pdus():
    """Each PDU once: its frame, and what has to be found in it. And how many have no room, and how many are refused."""
    found, too_long, refused = {}, set(), set()
    for ssi, up, down in exchanges():
        try:
            frame, wanted = uplink(ssi, up), wanted_up(up)
            found.update({(ssi, up): (frame, wanted)} if frame else {})
            too_long |= set() if frame else {up}
        except Refused:
            refused.add(up)
        if down:
            found[ssi, 'down', down] = downlink(ssi, down), wanted_down(down)
    return found, len(too_long), len(refused)


def location_area():
    """Wireshark takes 14 bits for LA information, and pdus.md 15: with 14 it reads the SSI that follows."""
    area, ssi = format(11_003, '014b'), format(2_001, '024b')
    for more, wanted in ('', True), ('0', False):
        bits = '0010' '011' '0' '0' '1' '0' '0' '1' + area + more + '1' + ssi + '0' '0'
        fields = dict(read_by_wireshark([uplink(ssi, bits)])[0])
        compare('LA information', fields['la_information'], '11003')
        compare(f'the SSI after {14 + len(more)} bits', fields['ssi'] == '00:07:d1', wanted)


def main():
    count = Count()
    if count.has('wireshark', 'tshark'):
        found, too_long, refused = pdus()
        for ((ssi, *bits), (_, wanted)), fields in zip(found.items(), read_by_wireshark([frame for frame, _ in found.values()])):
            count.case(' '.join(bits), lambda: compare('Wireshark finds', seen(fields), (ssi, *wanted)))
        count.case('each PDU', compare, 'kinds of PDUs', {wanted[0] for _, wanted in found.values()}, set(NAMES))
        count.case('LA information', location_area)
        print(f'{len(found)} PDUs; {too_long} longer than a frame and {refused} refused by the reading')
    count.end()


if __name__ == '__main__':
    main()
