"""Free ports of 127.0.0.1, for the scripts of tools/, bench/ and examples/."""
import random
import socket

# A socket of the other kind at each port that was given. As long as this script runs, no call gives that port again, here or
# in another script, though whoever is to have it may be down or not yet up.
held = []


def free_ports(count, kind=socket.SOCK_DGRAM):
    """Returns different ports that nobody has and no running script was given: of UDP, or of TCP with SOCK_STREAM. They are
    below those that the system gives to a socket that asks for any, so no client gets one while its node is down."""
    other = socket.SOCK_STREAM if kind == socket.SOCK_DGRAM else socket.SOCK_DGRAM
    ports = []
    while len(ports) < count:
        address = "127.0.0.1", random.randrange(20000, 32768)
        holder = socket.socket(socket.AF_INET, other)
        try:
            holder.bind(address)
            with socket.socket(socket.AF_INET, kind) as each:
                each.bind(address)
        except OSError:
            holder.close()
            continue
        held.append(holder)
        ports.append(address[1])
    return ports


def free_port():
    """Returns a port of UDP that nobody has and no running script was given."""
    return free_ports(1)[0]
