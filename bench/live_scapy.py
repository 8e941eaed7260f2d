#!/usr/bin/python3
"""Scapy's XCP layer as a master of examples/c/xcp_server.c, by UDP and by TCP. Not a part of the gate: it needs scapy
(Debian's python3-scapy).

    bench/live_scapy.py [SERVER]      SERVER is the built server; out/live/xcp_server, as ./live leaves it

Commands are built, and replies taken apart, by Scapy; LEN and CTR are written and read here, least significant byte first. It prints
what each GET_ command was answered, and what was measured. Ends with status 1 at the first thing that isn't as it should be."""
import os
import signal
import socket
import struct
import subprocess
import sys
import tempfile

from scapy.config import conf
from scapy.contrib.automotive.xcp.xcp import *

sys.dont_write_bytecode = True
sys.path.append(os.path.join(os.path.dirname(os.path.abspath(__file__)), "..", "tests"))
from a2l_variables import variables_of  # noqa: E402

# what is measured of each event channel
FAST = ["counter", "stamp", "torque"]
SLOW = ["slow_counter", "temperature", "state"]


def want(holds, what):
    if not holds:
        sys.exit("live_scapy: " + what)


class Line:
    """A connection: frames out, packets in; counters rise by one."""

    def __init__(self, kind, port):
        self.socket = socket.socket(socket.AF_INET, kind)
        self.socket.connect(("127.0.0.1", port))
        self.socket.settimeout(5)
        self.bytes = b""
        self.out = 0
        self.last = None
        self.samples = {}

    def packet(self):
        while len(self.bytes) < 4 or len(self.bytes) < 4 + struct.unpack("<H", self.bytes[:2])[0]:
            got = self.socket.recv(65536)
            want(got, "the server is gone")
            self.bytes += got
        length, counter = struct.unpack("<HH", self.bytes[:4])
        want(self.last is None or counter == (self.last + 1) % 65536, "CTR rises by one")
        self.last = counter
        packet, self.bytes = self.bytes[4:4 + length], self.bytes[4 + length:]
        return packet

    def ask(self, command, code=None):
        """Sends a command, and gives its reply as Scapy reads it; samples that come meanwhile are kept."""
        request = CTORequest() / command
        packet = bytes(request)
        self.socket.sendall(struct.pack("<HH", len(packet), self.out) + packet)
        self.out = (self.out + 1) % 65536
        while True:
            packet = self.packet()
            if packet[0] >= 0xFE:
                break
            self.keep(packet)
        response = CTOResponse(packet)
        want(response.answers(CTORequest(bytes(request))), f"{command.name}: Scapy doesn't know {packet.hex()} as a reply")
        want((packet[0] == 0xFF) == (code is None), f"{command.name}: {packet.hex()}")
        if code is not None:
            want(packet[1] == code, f"{command.name}: {packet.hex()}")
        return response.payload

    def keep(self, packet):
        self.samples.setdefault(packet[0] & 0x7F, []).append(packet)


def upload(line, length):
    return bytes(line.ask(Upload(nr_of_data_elements=length)).element) if length else b""


def tell(name, payload):
    print(f"  {name}: " + ", ".join(f"{field} {value}" for field, value in payload.fields.items()))


def read_all(line):
    """Every GET_ command, and the texts."""
    tell("GET_STATUS", line.ask(GetStatus()))
    line.ask(Synch(), code=0x00)
    tell("GET_COMM_MODE_INFO", line.ask(GetCommModeInfo()))
    identity = line.ask(GetId(identification_type=0))
    tell("GET_ID", identity)
    want(bytes(identity.element) == b"xcp_server", "the name")
    tell("GET_DAQ_PROCESSOR_INFO", line.ask(GetDaqProcessorInfo()))
    resolution = line.ask(GetDaqResolutionInfo())
    tell("GET_DAQ_RESOLUTION_INFO", resolution)
    want(resolution.get_timestamp_size() == 4, "timestamps of 4 bytes")
    for event, name in enumerate([b"1 ms", b"10 ms"]):
        info = line.ask(GetDaqEventInfo(event_channel_num=event))
        tell("GET_DAQ_EVENT_INFO", info)
        want(upload(line, info.event_channel_name_length) == name, "an event channel's name")
    line.ask(GetDaqEventInfo(event_channel_num=2), code=0x22)
    tell("GET_DAQ_CLOCK", line.ask(GetDaqClock()))


def set_up(line, lists):
    """Lists of one ODT with a timestamp: (event channel, [(address, size)]) each."""
    line.ask(FreeDaq())
    line.ask(AllocDaq(daq_count=len(lists)))
    for number in range(len(lists)):
        line.ask(AllocOdt(daq_list_num=number, odt_count=1))
    for number, (_, entries) in enumerate(lists):
        line.ask(AllocOdtEntry(daq_list_num=number, odt_num=0, odt_entries_count=len(entries)))
    for number, (event, entries) in enumerate(lists):
        line.ask(SetDaqPtr(daq_list_num=number, odt_num=0, odt_entry_num=0))
        for address, size in entries:
            line.ask(WriteDaq(bit_offset=0xFF, size_of_daq_element=size, address=address))
        line.ask(SetDaqPtr(daq_list_num=number, odt_num=0, odt_entry_num=0))
        entry = line.ask(ReadDaq())
        want((entry.daq_element_address, entry.size_daq_element) == entries[0], "READ_DAQ")
        line.ask(SetDaqListMode(mode="timestamp", daq_list_num=number, event_channel_num=event, transmission_rate_prescaler=1))
        tell("GET_DAQ_LIST_MODE", line.ask(GetDaqListMode(daq_list_number=number)))
        tell("GET_DAQ_LIST_INFO", line.ask(GetDaqListInfo(daq_list_num=number)))


def measure(line, lists, many):
    """Selects and starts so many lists, takes so many samples of list 0, and stops."""
    line.samples = {}
    for number in range(lists):
        line.ask(StartStopDaqList(mode="select", daq_list_number=number))
    line.ask(StartStopSynch(mode="start"))
    while len(line.samples.get(0, [])) < many:
        packet = line.packet()
        want(packet[0] < 0xFC, "a reply to nothing")
        line.keep(packet)
    want(int(line.ask(GetStatus()).current_session_status) == 0x40, "a list runs")
    line.ask(StartStopSynch(mode="stop"))
    want(int(line.ask(GetStatus()).current_session_status) == 0, "no list runs")
    for packets in line.samples.values():
        counters = [struct.unpack("<I", packet[5:9])[0] for packet in packets]
        marks = [packet[0] >> 7 for packet in packets]
        want(all((b != a + 1) == bool(mark) for a, b, mark in zip(counters, counters[1:], marks[1:])), "gaps and marks")
    print("  measured: " + ", ".join(f"list {number}: {len(packets)}" for number, packets in sorted(line.samples.items())))


def elements_of(server):
    """The address and size of each variable, by the A2L file that the server writes."""
    with tempfile.NamedTemporaryFile(suffix=".a2l") as file:
        subprocess.run([server, "--a2l", file.name], check=True)
        return {it.name: (it.address, it.size) for it in variables_of(file.name)}


def try_by(kind, port, elements):
    fast, slow = ([elements[name] for name in names] for names in (FAST, SLOW))
    line = Line(kind, port)
    conf.contribs["XCP"]["byte_order"] = 0
    tell("CONNECT", line.ask(Connect()))
    read_all(line)
    set_up(line, [(0, fast), (1, slow)])
    measure(line, 2, 500)
    want(len(line.samples.get(1, [])) >= 40, "both event channels are measured")
    for packet in line.samples[0]:
        time, counter, stamp, torque = struct.unpack("<IIIh", packet[1:])
        want(stamp == time and torque == counter % 1000 - 500, "values of one trigger")
    measure(line, 2, 300)
    set_up(line, [(1, slow)])
    measure(line, 1, 30)
    line.ask(Disconnect())
    line.socket.close()


def main():
    server = sys.argv[1] if len(sys.argv) > 1 else os.path.join(os.path.dirname(__file__), "..", "out", "live", "xcp_server")
    process = subprocess.Popen([server, "--udp", "0", "--tcp", "0"], stdout=subprocess.PIPE, text=True)
    try:
        _, udp, _, tcp = process.stdout.readline().split()
        for name, kind, port in [("UDP", socket.SOCK_DGRAM, int(udp)), ("TCP", socket.SOCK_STREAM, int(tcp))]:
            print(name)
            try_by(kind, port, elements_of(server))
        process.send_signal(signal.SIGINT)
        print(process.stdout.read(), end="")
        want(process.wait() == 0, "the server's status")
    finally:
        process.kill()


main()
