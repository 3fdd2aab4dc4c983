#!/usr/bin/env python3
"""Lights slot 1 of a universe by multicast, and ends its stream: send.py UNIVERSE [SECONDS [UDP-PORT [OWN ADDRESS]]]"""
import socket, sys, time
import sacn_core

SHOW = """version = 2
cid = "5fcd1d5c-2f0b-4c3a-9f0e-6f9a5b6d7e01"
name = "send.py"
universes = [{0}]
patch = [{{ channel = 1, universe = {0}, slot = 1 }}]
"""


def main(universe, seconds="5", udp_port="5568", address="0.0.0.0"):
    with sacn_core.Console(SHOW.format(universe)) as console, socket.socket(socket.AF_INET, socket.SOCK_DGRAM) as out:
        out.bind((address, 0))
        began, end, is_ending = time.monotonic(), int(1000 * float(seconds)), False
        console.set_level(0, channel=1, level=65535)
        while console.universes()[0].state != sacn_core.UniverseState.STOPPED:
            now = int(1000 * (time.monotonic() - began))
            if now >= end and not is_ending:
                console.end_universe(now, int(universe))
                is_ending = True
            while datagram := console.poll(now):
                out.sendto(datagram.octets, (datagram.group, int(udp_port)))
            wakes = min(console.wakes(), now + 25 if is_ending else end)
            time.sleep(max(0, wakes / 1000 - (time.monotonic() - began)))


main(*sys.argv[1:])
