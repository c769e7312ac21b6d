"""Replies to try: those that are nearly right, of every variant, for each kind of call."""

from channel import GREATEST

NONE = ('None',)
REFUSED = ('Err', ('AllocError',))


def sent(messages, others):
    """Replies of `try_broadcast`."""
    found = [('Ok', NONE)] + [('Ok', ('Some', other)) for other in others]
    return found + [('Err', (why, message)) for message in messages
                    for why in ('Full', 'Closed', 'Inactive')]


def attempted(messages, others):
    """Replies of `attempt_send` and `poll_send`."""
    found = [('Ready', ('Ok', NONE))] + [('Ready', ('Ok', ('Some', other))) for other in others]
    return found + [reply for message in messages for reply in (
        ('Wait', message), ('Ready', ('Err', ('SendError', message))))]


def tried(others, counts):
    """Replies of `try_recv`."""
    found = [('Ok', other) for other in others] + [('Err', ('Empty',)), ('Err', ('Closed',))]
    return found + [('Err', ('Overflowed', count)) for count in counts]


def made(ids):
    """Replies of the calls that make a receiver."""
    return [('Ok', new) for new in ids] + errors()


def errors():
    """What a call that makes a handle may refuse with."""
    return [('Err', (why,)) for why in ('Gone', 'TooMany', 'Memory')]


def received(name, others, counts):
    """Replies of the calls that receive."""
    found = tried(others, counts)
    if name == 'TryRecv':
        return [('Ok', reply) for reply in found] + [REFUSED]
    ready = [reply for reply in found if reply != ('Err', ('Empty',))]
    if name == 'PollRecv':
        ready = [NONE] + [('Some', reply) for reply in ready if reply != ('Err', ('Closed',))]
        ready.append(('Some', ('Err', ('Closed',))))
    if name == 'PollNext':
        ready = [NONE] + [('Some', ('Pair', other, count)) for other in others
                          for count in counts]
    return [('Ok', ('Ready', reply)) for reply in ready] + [('Ok', ('Pending',)), REFUSED]


def around(channel):
    """Messages and counts that a wrong reply would have."""
    others = list(channel.kept()[:2]) + list(channel.kept()[-1:]) + list(channel.accepted[:1])
    others = list(dict.fromkeys(others + [other + 1000 for other in others] + [5]))
    gaps = [max(0, channel.front() - cursor) for cursor in channel.cursors.values()]
    counts = sorted({0, 1} | {near for gap in gaps for near in (gap, gap + 1)})
    return others, counts


def values_for(call, channel, ids):
    """What a reply to the call may hold, right or wrong."""
    name = call[0]
    others, counts = around(channel)
    if name in ('TryBroadcast', 'AttemptSend', 'PollSend'):
        messages = [call[-1], call[-1] + 1]
        return sent(messages, others) if name == 'TryBroadcast' else attempted(messages, others)
    if name == 'TryBroadcastAll':
        lists = [call[1], call[1][1:], call[1] + (5,)]
        return [('Ok', ('Unit',))] + [('Err', (why, all_)) for all_ in lists
                                      for why in ('Full', 'Closed', 'Inactive')]
    if name in ('TryRecv', 'PollFuture', 'PollRecv', 'PollNext'):
        return received(name, others, counts)
    if name == 'BeginSend':
        return [('Ok', new) for new in ids] + [REFUSED]
    if name in ('NewReceiver', 'Activate', 'ActivateCloned', 'CloneReceiver'):
        return made(ids)
    if name in ('NewSender', 'CloneInactive', 'Deactivate'):
        return [('Ok', ('Unit',))] + errors()
    if name == 'SetCapacity':
        return [('Ok', ('Unit',)), REFUSED]
    if name in ('Close', 'Overflow', 'AwaitActive', 'IsEmpty', 'IsFull', 'IsClosed',
                'IsTerminated'):
        return [False, True]
    return numbers_for(name, channel)


def numbers_for(name, channel):
    """What a count may be, right or wrong; None: the reply holds nothing."""
    near = {'Capacity': channel.capacity, 'Len': len(channel.kept()), 'EndNumber': channel.end(),
            'ReceiverCount': len(channel.cursors), 'SenderCount': channel.senders,
            'InactiveReceiverCount': channel.inactive}.get(name)
    if near is None:
        return [None]
    return sorted({0, 1, max(0, near - 1), near, near + 1, channel.room, channel.inactive,
                   channel.senders, channel.front(), GREATEST})


def replies_for(call, channel, ids, random):
    """Replies of the call's own kind, and one of another call's."""
    found = [(call[0],) if held is None else (call[0], held)
             for held in values_for(call, channel, ids)]
    other = random.choice(('EndSend', 'EndFuture', 'DropSender', 'DropInactive', 'DropReceiver',
                           'SetOverflow', 'SetAwaitActive'))
    found.append((other,))
    if len(found[0]) == 2 and call[0] != 'AttemptSend':
        twin = {'PollSend': 'AttemptSend', 'NewReceiver': 'Activate', 'PollRecv': 'PollFuture',
                'Len': 'Capacity', 'IsEmpty': 'IsFull'}.get(call[0])
        if twin:
            found.append((twin, found[0][1]))
    return found
