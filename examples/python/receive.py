#!/usr/bin/env python3
"""Shows a universe that comes by multicast: prints 'PORT MILLISECONDS FRAME' for each frame that changed.

usage: receive.py UNIVERSE [SECONDS [UDP-PORT [ADDRESS OF THE DEVICE TO JOIN ON]]]"""
import socket, sys, time
import sacn_core


def main(universe, seconds="inf", udp_port="5568", address="0.0.0.0"):
    node, hears = sacn_core.Node.of_universes([int(universe)]), socket.socket(socket.AF_INET, socket.SOCK_DGRAM)
    with node, hears:
        hears.bind(("", int(udp_port)))
        joined = socket.inet_aton(sacn_core.multicast_group(int(universe))) + socket.inet_aton(address)
        hears.setsockopt(socket.IPPROTO_IP, socket.IP_ADD_MEMBERSHIP, joined)
        began, shown, now = time.monotonic(), None, 0
        while now < 1000 * float(seconds):
            if (frame := node.frame(now, 1)) != shown:
                shown = frame
                print(1, now, frame.hex(), flush=True)
            hears.settimeout((min(now + 1000, node.wakes() or now + 1000) - now) / 1000)
            try:
                datagram = hears.recv(2048)
                node.take(int(1000 * (time.monotonic() - began)), datagram)
            except (socket.timeout, sacn_core.NotAPacket):
                pass
            now = int(1000 * (time.monotonic() - began))


main(*sys.argv[1:])
