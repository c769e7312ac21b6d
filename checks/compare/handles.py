"""Settings and handles: docs/RULES.md, 'Closing and settings' and 'Handles'."""

from channel import GREATEST
from sending import REFUSED

GONE = ('Err', ('Gone',))
TOO_MANY = ('Err', ('TooMany',))
NO_MEMORY = ('Err', ('Memory',))
DONE = ('Ok', ('Unit',))


def set_capacity(channel, choice, capacity):
    """'Closing and settings': the oldest are dropped; above the greatest so far takes memory."""
    if capacity > channel.room and choice.refused:
        return REFUSED
    if capacity < len(channel.kept()):
        channel.floor = channel.end() - capacity
    channel.capacity = capacity
    channel.room = max(channel.room, capacity)
    return DONE


def set_overflow(channel, choice, flag):
    """'Closing and settings': sets the flag."""
    channel.overflow = flag


def set_await_active(channel, choice, flag):
    """'Closing and settings': sets the flag."""
    channel.await_active = flag


def new_sender(channel, choice):
    """'Handles': one sender more."""
    if channel.senders == GREATEST:
        return TOO_MANY
    channel.senders += 1
    return DONE


def clone_inactive(channel, choice):
    """'Handles': one inactive receiver more, if there is one."""
    if channel.inactive == 0:
        return GONE
    if channel.inactive == GREATEST:
        return TOO_MANY
    channel.inactive += 1
    return DONE


def deactivate(channel, choice, key):
    """'Handles': removes a receiver and counts an inactive one more, in one step."""
    if key not in channel.cursors:
        return GONE
    if channel.inactive == GREATEST:
        return TOO_MANY
    channel.inactive += 1
    channel.remove_receiver(key)
    return DONE


def make_receiver(channel, choice, cursor):
    """'Handles': a receiver under a new key, or refused memory."""
    if choice.refused:
        return NO_MEMORY
    if choice.new_id in channel.cursors:
        return None
    channel.cursors[choice.new_id] = cursor
    return ('Ok', choice.new_id)


def new_receiver(channel, choice):
    """'Handles': a receiver at the end."""
    return make_receiver(channel, choice, channel.end())


def activate_cloned(channel, choice):
    """'Handles': a receiver at the end, beside an inactive one that stays."""
    return make_receiver(channel, choice, channel.end()) if channel.inactive else GONE


def activate(channel, choice):
    """'Handles': a receiver at the end; one inactive receiver less."""
    reply = activate_cloned(channel, choice)
    if reply and reply[0] == 'Ok':
        channel.inactive -= 1
    return reply


def clone_receiver(channel, choice, key):
    """'Handles': a receiver at the cursor of that one."""
    if key not in channel.cursors:
        return GONE
    return make_receiver(channel, choice, channel.cursors[key])


def drop_sender(channel, choice):
    """'Closing and settings': dropping the last sender closes."""
    if channel.senders > 0:
        channel.senders -= 1
        channel.close_if_deserted()


def drop_inactive(channel, choice):
    """'Closing and settings': closes when no receiver of any kind is left."""
    if channel.inactive > 0:
        channel.inactive -= 1
        channel.close_if_deserted()


def drop_receiver(channel, choice, key):
    """'Handles': the receiver leaves; closes when no receiver of any kind is left."""
    if key in channel.cursors:
        channel.remove_receiver(key)
        channel.close_if_deserted()
