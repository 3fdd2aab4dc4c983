"""Looks of nothing_blocks.py at a desk that is started again: when the light of its next life comes."""
import signal
import socket
import subprocess
import uuid

import stage
from stage import Desk, first_level, Lines, packet, PORT, SACN, start, want, write


def numbers_of_an_earlier_life(numbers):
    """On each of so many universes a node holds a number of an earlier life of a desk, half of which ended: how long it takes until all are lit anew."""
    universes = range(1, len(numbers) + 1)
    ports = "".join(f"[[port]]\nnumber = {u}\nuniverse = {u}\n" for u in universes)
    patch = "".join(f"[[patch]]\nchannel = 1\nuniverse = {u}\nslot = 1\n" for u in universes)
    node = write("lives.toml", f"version = 1\nudp_port = {PORT}\n{ports}")
    show = f'version = 1\ncid = "{uuid.UUID(bytes=stage.CID)}"\nname = "Desk"\nuniverses = {list(universes)}\nsend_to = [{PORT}]\n'
    desk = write("life.toml", show + "[[cue]]\nnumber = 1\nfade = 0\nlevels = [[1, 65535]]\n" + patch)
    run = start([SACN, "gateway", node], stdin=subprocess.DEVNULL, stdout=subprocess.PIPE, stderr=subprocess.DEVNULL, text=True)
    lines = Lines(run.stdout)
    lines.until(lambda line: True, 20)
    sock = socket.socket(socket.AF_INET, socket.SOCK_DGRAM)

    def shows(level, ports, seconds=5):
        """How long it takes until so many ports show a level."""
        seen = set()
        return lines.until(lambda line: first_level(line) == level and seen.add(line.split()[0]) is None and len(seen) == ports, seconds)

    # (the node takes the first packet of a source whatever its number is)
    ending = [it for it in zip(universes, numbers) if it[1] % 2]
    for universe, number in zip(universes, numbers):
        sock.sendto(packet(number - number % 2, 7, universe), ("127.0.0.1", PORT))
    if shows(7, len(numbers)) is None:
        return None
    for universe, number in ending:
        sock.sendto(packet(number, 7, universe, 0x40), ("127.0.0.1", PORT))
    if shows(0, len(ending)) is None:
        return None
    life = Desk([SACN, "desk", desk], stderr=subprocess.DEVNULL, text=True)
    life.order("go\n", "^ok")
    took = shows(255, len(numbers))
    for it in (life.run, run):
        it.kill()
        it.wait()
    return took


def another_life_lights_at_once():
    """A desk is started again while a node still holds a number of its earlier life: at each of 256 numbers all universes are lit with the first order."""
    took = [numbers_of_an_earlier_life(range(first, first + 16)) for first in range(0, 256, 16)]
    late = [16 * place for place, it in enumerate(took) if it is None or it > 0.8]
    want(not late, f"{len(took)} times 16 numbers, lit after {max((it for it in took if it is not None), default=0):.2f} s at most (under 0.8); late: {late}")


def life(level):
    """The show of a desk whose one cue sets slot 1 of universe 1 to a level at once."""
    show = f'version = 1\ncid = "{uuid.UUID(bytes=stage.CID)}"\nname = "Desk"\nuniverses = [1]\nsend_to = [{PORT}]\n'
    cue = f"[[cue]]\nnumber = 1\nfade = 0\nlevels = [[1, {257 * level}]]\n[[patch]]\nchannel = 1\nuniverse = 1\nslot = 1\n"
    return write(f"life{level}.toml", show + cue)


def one_life_follows_another():
    """However a life of a desk ends, the next begins at once behind it, and is lit with its first order."""
    node = write("lives.toml", f"version = 1\nudp_port = {PORT}\n[[port]]\nnumber = 1\nuniverse = 1\n")
    run = start([SACN, "gateway", node], stdin=subprocess.DEVNULL, stdout=subprocess.PIPE, stderr=subprocess.DEVNULL, text=True)
    lines = Lines(run.stdout)
    lines.until(lambda line: True, 20)

    def lit(level):
        """A desk after its first order, and how long the light of it took."""
        desk = Desk([SACN, "desk", life(level)], stderr=subprocess.DEVNULL, text=True)
        desk.order("go\n", "^ok")
        return desk, lines.until(lambda line: first_level(line) == level, 5)

    def ends(desk, how):
        how()
        desk.run.wait(timeout=30)

    def stops(desk):
        desk.run.send_signal(signal.SIGSTOP)

    def is_lost(desk):
        stops(desk)
        lines.until(lambda line: first_level(line) == 0, 10)

    ways = {
        "was killed": lambda desk: ends(desk, desk.run.kill),
        "was terminated": lambda desk: ends(desk, desk.run.terminate),
        "had no more orders": lambda desk: ends(desk, desk.run.stdin.close),
        "stands still": stops,
        "was lost": is_lost,
    }
    desk, took = lit(10)
    # (a packet that isn't taken is followed by one 900 ms later at the soonest)
    want(took is not None and took < 0.8, f"the first life is lit after {took} s (under 0.8)")
    for level, (how, end) in enumerate(ways.items(), 11):
        end(desk)
        desk, took = lit(level)
        want(took is not None and took < 0.8, f"behind one that {how}: lit {took} s after the answer to its first order (under 0.8)")
