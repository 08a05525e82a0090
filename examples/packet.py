# a UDP packet from 10.0.1.1, port 5001, to 10.0.3.1, port 5002, with four octets of data, in hexadecimal
import ipaddress, struct

def checksum(octets):
    total = sum(struct.unpack(">%dH" % (len(octets) // 2), octets))
    while total > 0xFFFF:
        total = total % 0x10000 + total // 0x10000
    return 0xFFFF - total

data = bytes.fromhex("01020304")
udp = struct.pack(">4H", 5001, 5002, 8 + len(data), 0) + data
front = struct.pack(">BBHHHBB", 0x45, 0, 20 + len(udp), 1, 0, 32, 17)
ends = ipaddress.ip_address("10.0.1.1").packed + ipaddress.ip_address("10.0.3.1").packed
sum_field = struct.pack(">H", checksum(front + ends))
print((front + sum_field + ends + udp).hex())
