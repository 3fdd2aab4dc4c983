#!/usr/bin/env python3
"""Sends levels of a universe by multicast, slot 1 full, and ends it: levels.py UNIVERSE [SECONDS [UDP-PORT [OWN ADDRESS]]]"""
import socket, sys, time, uuid
import sacn_core

CID = uuid.UUID("5fcd1d5c-2f0b-4c3a-9f0e-6f9a5b6d7e11")


def main(universe, seconds="5", udp_port="5568", address="0.0.0.0"):
    with sacn_core.Source(CID, "levels.py", room=1) as source, socket.socket(socket.AF_INET, socket.SOCK_DGRAM) as out:
        out.bind((address, 0))
        source.add(int(universe))
        source.levels(int(universe), bytes([255]))
        began, end, is_ending = time.monotonic(), int(1000 * float(seconds)), False
        while source.universes()[0].state != sacn_core.UniverseState.STOPPED:
            now = int(1000 * (time.monotonic() - began))
            if now >= end and not is_ending:
                source.end_all()
                is_ending = True
            while datagram := source.poll(now):
                out.sendto(datagram.octets, (datagram.group, int(udp_port)))
            wakes = min(source.wakes(), now + 25 if is_ending else end)
            time.sleep(max(0, wakes / 1000 - (time.monotonic() - began)))


main(*sys.argv[1:])
