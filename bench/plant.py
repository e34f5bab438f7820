"""Makes what a plant is run with.

    plant.py conf LINKS LENGTH   the configuration of so many connections with this length both ways
    plant.py script TICKS        a script of so many ticks

The frames go through the channel that keeps order. For each connection the net has an emergency stop, which drives the first output bit of the
next one.
"""
import sys


def conf(links, length):
    """A configuration of so many connections with this length both ways."""
    yield '[plant]\napp = "net"\nchannel = "perfect"\nseed = 1\n'
    for link in range(1, links + 1):
        yield f"[[connection]]\nid = {link}\naddress = {link}\nwatchdog = 100\nmaster_length = {length}\nslave_length = {length}\n"
    for link in range(1, links + 1):
        yield f'[[block]]\nkind = "estop"\nins = ["i{link}.0", "i{link}.1"]\n'
    for link in range(1, links + 1):
        yield f'[[drive]]\nout = "o{link % links + 1}.0"\nfrom = "b{link}"\n'


def script(ticks):
    """A script of so many ticks."""
    yield "fsoe 1 plant\n" + ticks * "t\n" + "end\n"


match sys.argv[1:]:
    case ["conf", links, length]:
        sys.stdout.writelines(conf(int(links), int(length)))
    case ["script", ticks]:
        sys.stdout.writelines(script(int(ticks)))
    case _:
        sys.exit(__doc__)
