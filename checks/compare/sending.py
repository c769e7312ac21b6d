"""Calls that send: docs/RULES.md, 'Sending', and the sends of 'Polls'."""

from channel import GREATEST

NONE = ('None',)
REFUSED = ('Err', ('AllocError',))


def send_reply(channel, message):
    """'Sending', the table: the reply to `try_broadcast`; an acceptance is made."""
    if channel.closed:
        return ('Err', ('Closed', message))
    if not channel.cursors:
        return ('Err', ('Inactive', message))
    dropped = NONE
    if channel.is_full():
        if not channel.overflow:
            return ('Err', ('Full', message))
        dropped = ('Some', channel.kept()[0])
        channel.floor = channel.front() + 1
    channel.accept([message])
    return ('Ok', dropped)


def attempt_reply(channel, message):
    """'Sending', `attempt_send`: what may change by waiting is `Wait`."""
    if not channel.sends_are_ready():
        return ('Wait', message)
    reply = send_reply(channel, message)
    if reply[0] == 'Err':
        reply = ('Err', ('SendError', message))
    return ('Ready', reply)


def send_all_reply(channel, messages):
    """'Sending', `try_broadcast_all`: the whole list or none of it."""
    if channel.closed:
        return ('Err', ('Closed', messages))
    if not channel.cursors:
        return ('Err', ('Inactive', messages))
    places = channel.capacity - len(channel.kept())
    numbers = GREATEST - channel.end()
    if len(messages) > min(places, numbers):
        return ('Err', ('Full', messages))
    if messages:
        channel.accept(messages)
    return ('Ok', ('Unit',))


def poll_send(channel, choice, place, message):
    """'Polls', `poll_send`: an answer frees the place and tells the next send."""
    if place not in channel.places:
        return ('Wait', message)
    reply = attempt_reply(channel, message)
    if reply[0] == 'Wait':
        channel.sends.wait(place)
        return reply
    channel.sends.leave(place)
    channel.places.remove(place)
    if channel.sends_are_ready():
        channel.sends.tell_first()
    return reply


def begin_send(channel, choice):
    """'Memory': makes a pending send, at a place that is free."""
    if choice.refused:
        return REFUSED
    if choice.new_id in channel.places:
        return None
    channel.places.add(choice.new_id)
    return ('Ok', choice.new_id)


def end_send(channel, choice, place):
    """'Who waits': the send gives up, and its place is free."""
    channel.sends.give_up(place)
    channel.places.discard(place)
