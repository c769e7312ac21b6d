"""Calls that receive: docs/RULES.md, 'Receiving', and the receives of 'Polls'."""

from sending import NONE, REFUSED

PENDING = ('Pending',)


def read(channel, choice, key):
    """'Receiving', the table: a message, or an error of `try_recv`; None if refused memory."""
    cursor = channel.cursors.get(key)
    if cursor is None:
        return ('Err', ('Closed',))
    if cursor < channel.front():
        missed = channel.front() - cursor
        channel.cursors[key] = channel.front()
        return ('Err', ('Overflowed', missed))
    if cursor == channel.end():
        return ('Err', ('Closed',) if channel.closed else ('Empty',))
    message = channel.message(cursor)
    if channel.is_owed_elsewhere(key, cursor):
        if choice.refused:
            return None
        message = choice.clone(message)
    channel.cursors[key] = cursor + 1
    return ('Ok', message)


def unread(channel, key):
    """'Receiving': how many kept messages the receiver's cursor hasn't passed."""
    cursor = channel.cursors.get(key)
    if cursor is None:
        return 0
    return sum(number >= cursor for number in range(channel.front(), channel.end()))


def missed(channel, key):
    """'Receiving': how many messages the receiver's next `try_recv` counts as missed."""
    return max(0, channel.front() - channel.cursors.get(key, channel.front()))


def try_recv(channel, choice, key):
    """'Receiving': `try_recv`."""
    found = read(channel, choice, key)
    return REFUSED if found is None else ('Ok', found)


def poll(channel, key, kind, found, spell):
    """'Polls': pending waits in the list, an answer leaves it, a refusal changes nothing."""
    if found is None:
        return REFUSED
    if found == ('Err', ('Empty',)):
        channel.receives.wait((key, kind))
        return ('Ok', PENDING)
    channel.receives.leave((key, kind))
    return ('Ok', ('Ready', spell(found)))


def poll_future(channel, choice, key):
    """'Polls', `poll_future`: as `try_recv`, where `Empty` is pending."""
    return poll(channel, key, 'future', read(channel, choice, key), lambda found: found)


def poll_recv(channel, choice, key):
    """'Polls', `poll_recv`: the stream; `Closed` ends it."""
    def spell(found):
        """How the stream says it."""
        return NONE if found == ('Err', ('Closed',)) else ('Some', found)
    return poll(channel, key, 'stream', read(channel, choice, key), spell)


def poll_next(channel, choice, key):
    """'Polls', `poll_next`: what was missed is skipped, and counted beside the message."""
    before = channel.cursors.get(key)
    found, missed = read(channel, choice, key), 0
    if found is not None and found[0] == 'Err' and found[1][0] == 'Overflowed':
        missed = found[1][1]
        found = read(channel, choice, key)
        if found is None:
            channel.cursors[key] = before

    def spell(found):
        """How the stream says it."""
        return ('Some', ('Pair', found[1], missed)) if found[0] == 'Ok' else NONE
    return poll(channel, key, 'stream', found, spell)


def end_future(channel, choice, key):
    """'Polls', `end_future`: gives up."""
    channel.receives.give_up((key, 'future'))
