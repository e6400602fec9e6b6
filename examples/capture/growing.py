"""Writes captures of many connections, one after the other, so long that they are never in memory as a whole."""
import struct

from packets import ACK, PSH, Conversation, pcap

REQUEST = b'2300120260307    090210AOL1|AAP000012|AC|AD|\r'
RESPONSE = b'24              00120260307    090210AEAnn Reader|AAP000012|BLY|AOL1|\r'
# A client that stands for any: its address and port occur nowhere else.
ADDRESS, PORT = bytes([10, 99, 98, 97]), b'\xee\xef'


def packets_of(talk, port=6001):
    """The packets of what this function lets a client and a server say, with their heads."""
    packets = []
    talk(Conversation(packets, 4, 0, port))
    return pcap(packets, 'ethernet')[24:].replace(bytes([10, 0, 0, 7]), ADDRESS).replace(struct.pack('>H', 40000), PORT)


def of_client(packets, number):
    """The same packets from another client, by its number."""
    high, low = divmod(number, 50000)
    return packets.replace(ADDRESS, bytes([10, 1, high, 5])).replace(PORT, struct.pack('>H', 10000 + low))


def exchange(talk, answers=True, ends=True):
    talk.begin()
    talk.say(False, REQUEST)
    if answers:
        talk.say(True, RESPONSE)
    if ends:
        talk.end()


def foreign(talk):
    """Another protocol: bytes without a carriage return, of a connection whose end isn't captured."""
    talk.begin()
    for _ in range(3):
        talk.say(False, b'\x16\x03\x01' + b'\x80' * 1400)


def lossy(talk):
    """A segment of the client wasn't captured, and three that follow it were."""
    exchange(talk, True, False)
    talk.sent[0] += 20
    for _ in range(3):
        talk.packet(False, talk.sent[0], ACK | PSH, REQUEST)
        talk.sent[0] += len(REQUEST)
    talk.end()


def one_connection(file, count):
    packets = []
    talk = Conversation(packets, 4, 0, 6001)
    talk.begin()
    for _ in range(count):
        talk.say(False, REQUEST)
        talk.say(True, RESPONSE)
        if len(packets) > 4000:
            file.write(pcap(packets, 'ethernet')[24:])
            packets.clear()
    talk.end()
    file.write(pcap(packets, 'ethernet')[24:])


def connections(talk, first=None, port=6001):
    """Writes this number of connections, each made by this function, after a first one of another kind."""
    def write(file, count):
        if first:
            file.write(of_client(packets_of(first), 3_000_000))
        packets = packets_of(talk, port)
        for number in range(count):
            file.write(of_client(packets, number))
        if port != 6001:
            file.write(of_client(packets_of(exchange), 3_000_000))
    return write


# What captures have, and how each is written.
KINDS = {
    'short connections': connections(exchange),
    'one long connection': one_connection,
    'a request that is never answered, of a connection that ends': connections(exchange, lambda talk: exchange(talk, False)),
    'a request that is never answered, of a connection that goes on': connections(exchange, lambda talk: exchange(talk, False, False)),
    'connections whose ends are missing': connections(lambda talk: exchange(talk, True, False)),
    'connections with a gap': connections(lossy),
    'another protocol': connections(foreign, None, 443),
}


def write(path, kind, count):
    """Writes a capture of this number of connections, or of exchanges on one."""
    with open(path, 'wb') as file:
        file.write(pcap([], 'ethernet'))
        KINDS[kind](file, count)
