"""The machine's states and replies as values of the definitions."""

from pathlib import Path

from compiler import Definitions
from library import Function
from reader import read_folder, variants_of

KINDS = {'stream': ('Stream',), 'future': ('Future',)}
CLONE = 1000
HERE = Path(__file__).resolve().parents[2]


def load(crate=None):
    """The definitions of the model's crate, or of the copy given."""
    crate = Path(crate) if crate else HERE / 'crates' / 'bcast_model'
    return Definitions(read_folder(crate / 'specs'), variants_of(crate / 'src'))


def pair(who):
    """Who waits to receive."""
    return ('Pair', who[0], KINDS[who[1]])


def control(channel):
    """What a channel keeps beside its messages."""
    return {
        'cursors': dict(channel.cursors), 'senders': channel.senders,
        'inactive': channel.inactive, 'closed': channel.closed, 'overflow': channel.overflow,
        'await_active': channel.await_active, 'capacity': channel.capacity,
        'room': channel.room, 'places': frozenset(channel.places),
        'waiting_sends': {'ids': tuple(channel.sends.ids), 'told': channel.sends.told},
        'waiting_receives': {'ids': tuple(pair(who) for who in channel.receives.ids),
                             'told': channel.receives.told},
    }


def history(channel):
    """A channel with every message."""
    return {'first': channel.first, 'accepted': tuple(channel.accepted),
            'floor': channel.floor, 'control': control(channel)}


def view(channel):
    """What is seen of a channel."""
    return {'front': channel.front(), 'queue': tuple(channel.kept()), 'end': channel.end(),
            'control': control(channel)}


def value(reply):
    """A call or a reply."""
    if not isinstance(reply, tuple):
        return reply
    if reply and reply[0] == 'SendError':
        return {'0': reply[1]}
    return tuple(value(part) for part in reply)


def numbers_in(reply):
    """All numbers of a reply."""
    if isinstance(reply, bool):
        return []
    if isinstance(reply, int):
        return [reply]
    parts = reply.values() if isinstance(reply, dict) else reply
    return [] if isinstance(reply, str) else [n for part in parts for n in numbers_in(part)]


def is_clone(message, given):
    """Each message has two clones: one like itself, and one that can be told from it."""
    return given in (message, message + CLONE)


CLONES = (lambda message: message, lambda message: message + CLONE)
IS_CLONE = Function(is_clone, 2)
OTHER_CLONE = Function(lambda message, given: given == message + CLONE, 2)
