"""Random scripts and captures for bench/agree.sh. The same seed gives the same case.

Addresses, ports, routers and seconds come from small sets, so that frames meet what a script says of them. Some frames
are cut, some have bytes changed, and the seconds of a capture may go back.
"""
import random
import struct

BROADCAST = b"\xff" * 6
ALL_NODES = bytes.fromhex("ff020000000000000000000000000001")
HOSTS = [bytes.fromhex(word) for word in ("c0a80105", "c0a80109", "0a000002", "0a000009")]
GROUPS = [bytes.fromhex(word) for word in ("e00000fb", "ffffffff", "c0a801ff", "0a0000ff", "c0a80107", "00000000")]
DENIED = [0x88A2, 0x88A4, 0x88B8, 0x0842, 0x05DC, 0x88CC, 0x0806, 0x0800, 0x86DD]
PORTS = [40000, 443, 68, 5353]


class Case:
    """One script, and one capture for it."""

    def __init__(self, seed):
        self.random = random.Random(seed)
        self.mac = self.some_bytes(6)
        self.start = self.random.choice([0, 1000, 1000, 1000, 2**32 - 500])
        self.span = self.random.choice([20, 100, 450])
        self.sent = []
        self.routers = [self.advertisement(number) for number in range(self.random.choice([1, 2, 4, 14]))]

    def some_bytes(self, count):
        return bytes(self.random.randrange(256) for _ in range(count))

    def chance(self, share):
        return self.random.random() < share

    def second(self):
        return self.start + self.random.randrange(self.span)

    def tcp_number(self):
        return self.random.choice([0, 1000, 2000, 2**31, 2**32 - 1])

    # ---- the script

    def event(self):
        kind = self.random.randrange(8)
        if kind < 2:
            return "multicast " + self.random.choice(["on", "on", "off"])
        if kind < 4:
            return "doze " + self.random.choice(["on", "off"])
        if kind == 4:
            address = ".".join(map(str, self.random.choice(HOSTS)))
            prefix = self.random.choice([0, 8, 24, 24, 30, 31, 32, 33, 255])
            return self.random.choice(["address none", f"address {address}/{prefix}", f"address {address}/{prefix}"])
        slot = self.random.choice([0, 0, 1, 2, 3, 4, 5, 6, 7, 8, 2**32 - 1])
        if kind == 5:
            return f"keepalive remove {slot}"
        local, remote = self.random.sample(HOSTS, 2)
        ports = [self.random.choice(PORTS), self.random.choice(PORTS)]
        numbers = [self.tcp_number(), self.tcp_number()]
        self.sent.append((local, remote, *ports, *numbers))
        ends = [".".join(map(str, end)) + f":{port}" for end, port in zip((local, remote), ports)]
        return f"keepalive add {slot} {' '.join(ends)} {numbers[0]} {numbers[1]}"

    def script(self):
        """The text of a script, as docs/SCRIPT.md has it. For each first program its device has room."""
        denied = self.random.sample(DENIED, self.random.choice([0, 0, 0, 1, 2]))
        least = 128 + 600 + 9 * len(denied)
        capacity = self.random.choice([least, least + 79, least + 80, least + 300, 1024, 2048, 8192])
        lines = [
            "apf 1",
            "mac " + self.mac.hex(":"),
            f"capacity {max(capacity, least)}",
            f"start {self.start}",
            "drop802 " + self.random.choice(["on", "off"]),
            "deny " + (",".join(f"{one:04x}" for one in denied) or "none"),
        ]
        seconds = sorted(self.second() for _ in range(self.random.choice([0, 3, 12, 40])))
        lines += [f"at {second} {self.event()}" for second in seconds]
        return "".join(line + "\n" for line in lines).encode()

    # ---- frames

    def ethernet(self, destination, ethertype, rest):
        return destination + self.some_bytes(6) + struct.pack(">H", ethertype) + rest

    def destination(self):
        return self.random.choice([BROADCAST, self.mac, b"\x01\x00\x5e\x00\x00\xfb"])

    def arp(self):
        opening = bytes.fromhex("000108000604") if self.chance(0.9) else self.some_bytes(6)
        operation = self.random.choice([1, 1, 2, 2, 3])
        sender, target = (self.random.choice(HOSTS + GROUPS[-1:]) for _ in range(2))
        packet = opening + struct.pack(">H", operation) + self.some_bytes(6) + sender + self.some_bytes(6) + target
        return self.ethernet(self.destination(), 0x0806, packet)

    def ip4(self, protocol, source, destination, content, fragment=0):
        options = self.some_bytes(self.random.choice([0, 0, 0, 4, 40]))
        length = 20 + len(options) + len(content)
        head = struct.pack(">BBHHHBBH", 0x45 + len(options) // 4, 0, length, 0, fragment, 64, protocol, 0)
        return self.ethernet(self.destination(), 0x0800, head + source + destination + options + content)

    def dhcp(self):
        client = self.mac if self.chance(0.7) else self.some_bytes(6)
        port = 68 if self.chance(0.8) else self.random.choice(PORTS)
        content = struct.pack(">HHHH", 67, port, 0, 0) + self.some_bytes(28) + client + self.some_bytes(20)
        fragment = self.random.choice([0, 0, 0, 0x4000, 1])
        return self.ip4(17, self.random.choice(HOSTS), self.random.choice(HOSTS + GROUPS), content, fragment)

    def datagram(self):
        protocol = self.random.choice([1, 6, 17])
        source, destination = self.random.choice(HOSTS), self.random.choice(HOSTS + GROUPS)
        return self.ip4(protocol, source, destination, self.some_bytes(self.random.choice([0, 8, 20, 60])))

    def natt_keepalive(self):
        port, length = self.random.choice([4500] * 6 + [4499, 4501]), self.random.choice([9] * 6 + [8, 10])
        content = struct.pack(">HHHH", port, self.random.choice([4500, 5000]), length, 0)
        content += self.random.choice([b"\xff", b"\xff", b"\xff", b"\xfe", b""])
        fragment = self.random.choice([0, 0, 0, 0x4000, 1])
        return self.ip4(17, self.random.choice(HOSTS), self.random.choice(HOSTS + GROUPS), content, fragment)

    def keepalive_answer(self):
        if not self.sent:
            return self.datagram()
        local, remote, local_port, remote_port, sequence, acknowledgement = self.random.choice(self.sent)
        sequence = (sequence + self.random.choice([1, 1, 1, 1, 0])) % 2**32
        size = self.random.choice([0x50, 0x50, 0x5F, 0x80])
        content = struct.pack(">HHIIB", remote_port, local_port, acknowledgement, sequence, size)
        content += bytes((size >> 4) * 4 - len(content)) + self.some_bytes(self.random.choice([0, 0, 0, 5]))
        return self.ip4(6, remote, local, content)

    def ip6(self, next_header, destination, content):
        head = struct.pack(">IHBB", 0x60000000, len(content), next_header, 255) + self.some_bytes(16) + destination
        return self.ethernet(self.destination(), 0x86DD, head + content)

    def message(self):
        kind = self.random.choice([128, 129, 133, 135, 136, 136])
        destination = self.random.choice([ALL_NODES, ALL_NODES[:-1] + b"\xfb", ALL_NODES[:-2] + b"\x01\x01", self.some_bytes(16)])
        return self.ip6(58, destination, bytes([kind, 0, 0, 0]) + self.some_bytes(20))

    def packet6(self):
        destination = self.random.choice([ALL_NODES, self.some_bytes(16)])
        return self.ip6(self.random.choice([0, 6, 17]), destination, self.some_bytes(20))

    def lifetime(self):
        return self.random.choice([0, 5, 30, 60, 200, 1800, 65535])

    def option(self):
        kind = self.random.choice([1, 3, 3, 5, 24, 25, 31])
        units = {1: 1, 3: 4, 5: 1}.get(kind, self.random.choice([1, 2, 3]))
        content = bytearray(self.some_bytes(8 * units - 2))
        places = {3: (2, 6), 24: (2,), 25: (2,), 31: (2,)}.get(kind, ())
        for place in places:
            lifetime = self.lifetime() if self.chance(0.9) else 2**32 - 1
            content[place:place + 4] = struct.pack(">I", lifetime)
        return bytes([kind, units]) + content

    def advertisement(self, number):
        head = bytes([134, 0]) + self.some_bytes(2) + struct.pack(">BBHII", 64, 0, self.lifetime(), number, 0)
        options = b"".join(self.option() for _ in range(self.random.choice([0, 1, 2, 4])))
        return self.ip6(58, ALL_NODES, head + options)

    def known_advertisement(self):
        frame = bytearray(self.random.choice(self.routers))
        if self.chance(0.5):
            frame[15:18], frame[56:58] = self.some_bytes(3), self.some_bytes(2)
        if self.chance(0.3):
            frame[60:62] = struct.pack(">H", self.lifetime())
        if self.chance(0.1):
            frame += self.random.choice([b"\x01\x00", b"\x03\x01" + bytes(6), b"\x05\xbe" + bytes(1518)])
        return bytes(frame)

    def other(self):
        ethertype = self.random.choice(DENIED[:6] + [0x0040, 0x0600, 0x9000])
        return self.ethernet(self.destination(), ethertype, self.some_bytes(self.random.choice([0, 1, 40])))

    def frame(self):
        makers = [self.arp, self.dhcp, self.datagram, self.natt_keepalive, self.keepalive_answer, self.keepalive_answer, self.message,
                  self.packet6, self.known_advertisement, self.known_advertisement, self.known_advertisement, self.other]
        frame = bytearray(self.random.choice(makers)())
        if self.chance(0.1):
            for _ in range(self.random.randrange(1, 4)):
                frame[self.random.randrange(len(frame))] = self.random.randrange(256)
        if self.chance(0.1):
            del frame[self.random.randrange(len(frame) + 1):]
        return bytes(frame)

    def capture(self):
        """A capture, little-endian and with microseconds. Ask for it behind the script, whose keepalives it answers."""
        records = [struct.pack("<IHHiIII", 0xA1B2C3D4, 2, 4, 0, 0, 262144, 1)]
        seconds = [self.second() for _ in range(self.random.choice([0, 5, 30, 120]))]
        if self.chance(0.8):
            seconds.sort()
        for second in seconds:
            frame = self.frame()
            fraction = self.random.randrange(1_000_000)
            records.append(struct.pack("<IIII", second, fraction, len(frame), len(frame)) + frame)
        return b"".join(records)
