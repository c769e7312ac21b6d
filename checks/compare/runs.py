"""What a list of calls gives the receivers and drops, by docs/RULES.md and the machine's states.

A run is a list of steps, and a step is (state before, call, reply, state after).
"""

RECEIVES = ('TryRecv', 'PollFuture', 'PollRecv', 'PollNext')


def handed_out(reply):
    """What a receive hands out: each message, and None for each that was missed."""
    value = reply[1] if len(reply) > 1 else None
    while isinstance(value, tuple) and value[0] in ('Ok', 'Ready', 'Some'):
        value = value[1]
    if isinstance(value, int):
        return [value]
    if value[0] == 'Pair':
        return [None] * value[2] + [value[1]]
    if value[0] == 'Err' and value[1][0] == 'Overflowed':
        return [None] * value[1][1]
    return []


def given(key, call, reply):
    """What a step hands out to a receiver."""
    is_its = call[0] in RECEIVES and call[1] == key and reply[0] == call[0]
    return handed_out(reply) if is_its else []


def life(key, start, steps):
    """(All that a receiver is handed out until it leaves or the run ends, its last cursor)."""
    found, cursor = [], start.cursors.get(key)
    for _, call, reply, after in steps:
        found += given(key, call, reply)
        if key not in after.cursors:
            break
        cursor = after.cursors[key]
    return found, cursor


def is_exact(key, start, steps, final, is_clone):
    """Whether a receiver was handed out what was accepted, from its start to its last cursor."""
    found, cursor = life(key, start, steps)
    begin = start.cursors[key]
    if cursor != begin + len(found):
        return False
    return all(message is None or (final.first <= begin + index < final.end()
                                   and is_clone(final.message(begin + index), message))
               for index, message in enumerate(found))


def dropped_in_step(before, after):
    """The numbers that a step drops: those under the new floor that were kept before."""
    return list(range(before.front(), after.floor)) if before.cursors else []


def dropped(steps):
    """The numbers that a run drops, in order."""
    return [number for before, _, _, after in steps for number in dropped_in_step(before, after)]


def missed_were_dropped(steps, gone):
    """Whether what is told missed was dropped before, and what is given was not."""
    gone = list(gone)
    for before, call, reply, after in steps:
        for key, cursor in before.cursors.items():
            for index, message in enumerate(given(key, call, reply)):
                if (message is None) != (cursor + index in gone):
                    return False
        gone += dropped_in_step(before, after)
    return True


def must_wait(reply):
    """Whether a reply of a poll says that its caller is to wait."""
    if reply[0] == 'PollSend':
        return reply[1][0] == 'Wait'
    return len(reply) > 1 and reply[1] == ('Ok', ('Pending',))


def polled(channel, call):
    """The list that a poll's listener waits in, and who it is; None for another call."""
    if call[0] == 'PollSend':
        return channel.sends, call[1]
    if call[0] in ('PollFuture', 'PollRecv', 'PollNext'):
        return channel.receives, (call[1], 'future' if call[0] == 'PollFuture' else 'stream')
    return None


def told_in_a_row(steps):
    """How many steps from the first on poll who is told, and aren't refused memory."""
    count = 0
    for before, call, reply, _ in steps:
        who = polled(before, call)
        if who is None or not who[0].is_told(who[1]) or reply[1] == ('Err', ('AllocError',)):
            break
        count += 1
    return count
