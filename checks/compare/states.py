"""Random states and calls: small, and near the ends of the numbers."""

from channel import GREATEST, Channel, is_valid
from lists import Waiting

IDS = (0, 1, 2, 7, GREATEST)
COUNTS = (0, 1, 1, 1, 2, GREATEST - 1, GREATEST)
NO_ARGUMENT = (
    'BeginSend', 'Close', 'NewSender', 'CloneInactive', 'NewReceiver', 'Activate',
    'ActivateCloned', 'DropSender', 'DropInactive', 'Overflow', 'AwaitActive', 'IsEmpty',
    'IsFull', 'IsClosed', 'IsTerminated', 'Capacity', 'Len', 'ReceiverCount',
    'InactiveReceiverCount', 'SenderCount', 'EndNumber')
BY_KEY = ('TryRecv', 'PollFuture', 'EndFuture', 'PollRecv', 'PollNext', 'Deactivate',
          'CloneReceiver', 'DropReceiver')
BY_MESSAGE = ('TryBroadcast', 'AttemptSend')
THEMES = (
    ('TryBroadcast', 'AttemptSend', 'TryBroadcastAll', 'TryBroadcastAll', 'PollSend', 'BeginSend',
     'SetOverflow', 'SetCapacity', 'SetCapacity', 'TryRecv'),
    ('TryRecv', 'PollFuture', 'PollRecv', 'PollNext', 'PollNext', 'TryBroadcast', 'SetCapacity',
     'CloneReceiver', 'EndFuture'),
    ('BeginSend', 'PollSend', 'PollSend', 'EndSend', 'EndSend', 'PollFuture', 'PollRecv',
     'EndFuture', 'PollNext', 'DropReceiver', 'TryRecv', 'Close'),
    ('NewSender', 'CloneInactive', 'Deactivate', 'NewReceiver', 'Activate', 'ActivateCloned',
     'CloneReceiver', 'DropSender', 'DropInactive', 'DropReceiver', 'Close', 'SetAwaitActive',
     'AttemptSend'))
ALL = NO_ARGUMENT + BY_KEY + BY_MESSAGE + (
    'TryBroadcastAll', 'PollSend', 'EndSend', 'SetCapacity', 'SetOverflow', 'SetAwaitActive')


def first_number(random):
    """A first number: small, or so near the end that a run reaches it."""
    return random.choice((0, 0, 1, 5, GREATEST - 1, GREATEST - 2, GREATEST - 3, GREATEST - 6))


def opening(random):
    """A new channel."""
    return Channel(random.choice((1, 1, 2, 2, 3, 4, GREATEST)), first_number(random),
                   random.choice(IDS))


def told_count(random, waits):
    """How many of a list are told: often one."""
    return min(len(waits), random.choice((0, 1, 1, random.randint(0, len(waits)))))


def any_state(random):
    """A state of random parts, valid or not."""
    channel = opening(random)
    room = min(6, GREATEST - channel.first)
    channel.accepted = [random.randint(10, 99) for _ in range(random.randint(0, room))]
    first, end = channel.first, channel.end()
    channel.floor = random.choice((first, first, random.randint(first, end)))
    keys = random.sample(IDS, random.choice((0, 1, 1, 2, 2, 3)))
    channel.cursors = {key: random.randint(first, end) for key in keys}
    if random.random() < 0.3:
        channel.cursors = dict.fromkeys(keys, end)
    channel.senders, channel.inactive = random.choice(COUNTS), random.choice(COUNTS)
    channel.closed = random.random() < 0.2
    channel.overflow, channel.await_active = random.random() < 0.4, random.random() < 0.5
    if random.random() < 0.8:
        channel.capacity = max(1, len(channel.kept()) + random.choice((0, 0, 0, 1, 2)))
    channel.room = random.choice((channel.capacity, channel.capacity + 1, GREATEST))
    channel.places = set(random.sample(IDS, random.randint(0, 5)))
    waits = random.sample(sorted(channel.places), random.randint(0, len(channel.places)))
    channel.sends = Waiting(waits, told_count(random, waits))
    pairs = [(key, kind) for key in keys for kind in ('stream', 'future')]
    waits = random.sample(pairs, random.randint(0, len(pairs)))
    channel.receives = Waiting(waits, told_count(random, waits))
    return channel


def valid_state(random):
    """A random valid state, of which it isn't asked whether any list of calls reaches it."""
    while True:
        channel = any_state(random)
        if not is_valid(channel):
            channel.sends.told = max(channel.sends.told, min(1, len(channel.sends.ids)))
        if not is_valid(channel):
            channel.receives.told = len(channel.receives.ids)
        if is_valid(channel):
            return channel


def bent_view(random, seen):
    """What is seen of a state, with one number or message changed."""
    name = random.choice(('front', 'end', 'queue', 'cursors', None, None))
    bent = dict(seen)
    if name in ('front', 'end'):
        bent[name] = max(0, bent[name] + random.choice((-1, 1)))
    if name == 'queue':
        bent[name] = random.choice(((), seen['queue'] + (5,), seen['queue'][1:]))
    if name == 'cursors':
        at = random.choice((seen['front'], seen['end'], seen['end'] + 1, max(0, seen['end'] - 1),
                            max(0, seen['front'] - 1)))
        bent['control'] = {**seen['control'], 'cursors': {0: at}}
    return bent


def doubled(waiting):
    """The list with its last one twice."""
    return Waiting(waiting.ids + waiting.ids[-1:], waiting.told)


def bent_state(random):
    """A valid state with one part changed, so that it is valid or just not."""
    channel = valid_state(random).copy()
    name, values = random.choice((
        ('floor', (channel.first - 1, channel.end(), channel.end() + 1, channel.front())),
        ('floor', (channel.end(), max(channel.first, channel.end() - 1))),
        ('senders', (0, GREATEST, GREATEST + 1)), ('inactive', (0, GREATEST, GREATEST + 1)),
        ('closed', (False, True)), ('overflow', (False, True)), ('await_active', (False, True)),
        ('capacity', (0, len(channel.kept()), len(channel.kept()) - 1, channel.room + 1)),
        ('room', (channel.capacity - 1, GREATEST, GREATEST + 1)),
        ('first', (GREATEST - len(channel.accepted), GREATEST + 1 - len(channel.accepted))),
        ('places', (set(), {0}, set(IDS))), ('cursors', ({}, {0: channel.end() + 1},
                                                        {0: channel.first - 1},
                                                        {1: channel.end()})),
        ('sends', (Waiting([0, 1], 0), Waiting([0, 0], 1), Waiting([0], 2), Waiting([7], 0),
                   doubled(channel.sends), doubled(channel.sends))),
        ('receives', (Waiting([(0, 'stream')], 0), doubled(channel.receives),
                      doubled(channel.receives), doubled(channel.receives),
                      Waiting([(1, 'stream'), (1, 'future')], 1),
                      Waiting([(7, 'future')], 3)))))
    chosen = random.choice(values)
    shift = chosen - channel.first if name == 'first' else 0
    setattr(channel, name, chosen)
    if shift:
        channel.floor += shift
        channel.cursors = {key: at + shift for key, at in channel.cursors.items()}
    return channel if channel.floor >= 0 and channel.first >= 0 else bent_state(random)


def told_call(random, channel):
    """A poll of somebody who is told, if anybody is."""
    told = [('PollSend', place, 10) for place in channel.sends.ids[:channel.sends.told]]
    for key, kind in channel.receives.ids[:channel.receives.told]:
        names = ('PollFuture',) if kind == 'future' else ('PollRecv', 'PollNext')
        told.append((random.choice(names), key))
    return random.choice(told) if told else None


def any_call(random, channel, theme=None):
    """A random call of a theme; a theme of None polls who is told. Keys are mostly in use."""
    told = told_call(random, channel) if theme is None else None
    if told and random.random() < 0.9:
        return told
    name = random.choice(theme if theme and random.random() < 0.75 else ALL)
    keys, places = sorted(channel.cursors), sorted(channel.places)
    if random.random() < 0.5:
        keys = [key for key, _ in channel.receives.ids] or keys
        places = channel.sends.ids or places
    key = random.choice(keys) if keys and random.random() < 0.85 else random.choice(IDS)
    place = random.choice(places) if places and random.random() < 0.85 else random.choice(IDS)
    message = random.randint(10, 99)
    if name in NO_ARGUMENT:
        return (name,)
    if name in BY_KEY:
        return (name, key)
    if name in BY_MESSAGE:
        return (name, message)
    if name == 'PollSend':
        return (name, place, message)
    if name == 'EndSend':
        return (name, place)
    if name == 'TryBroadcastAll':
        count = random.choice((0, 1, 1, 2, 3, 5))
        return (name, tuple(random.randint(10, 99) for _ in range(count)))
    if name == 'SetCapacity':
        return (name, random.choice((1, 1, 2, 3, 4, channel.room, min(GREATEST, channel.room + 1))))
    return (name, random.random() < 0.5)
