"""A simulated RapidIO fabric, a port of a link, a check of traces, and what characters say, over the library libkigvarp.

    from kigvarp import Port

    with Port() as near, Port() as far:
        near.send(bytes(8), ftype=2, source=1, dest=2)
        far.got(near.turn())
        print(far.collect().hex())

The library is looked for at KIGVARP_LIBRARY, beside this package, and where the system has its libraries. docs/library.md
says what each call does and what is proved of it.
"""
from .checker import Checker
from .fabric import Fabric, NotDone
from .host import Host
from .library import Broken, Closed, KigvarpError, NotAsked, OutOfMemory, Refused, Spent, Status, Unlawful
from .port import CharDid, ClocksDid, Port, RunDid, State
from .text import char_text, chars_of, text_of
from .words import Bad, Event, Packet, Reading, Symbol, decode

__all__ = ["Bad", "Broken", "CharDid", "Checker", "ClocksDid", "Closed", "Event", "Fabric", "Host", "KigvarpError", "NotAsked",
           "NotDone", "OutOfMemory", "Packet", "Port", "Reading", "Refused", "RunDid", "Spent", "State", "Status", "Symbol",
           "Unlawful", "char_text", "chars_of", "decode", "text_of"]
