"""The state of a channel: docs/RULES.md, 'Words', 'Closing and settings', 'What holds'."""

from lists import Waiting

GREATEST = 2**64 - 1


class Channel:
    """All accepted messages, who reads them, the settings, and who waits."""

    def __init__(self, capacity, first, key):
        """'Words': a new channel is open and empty, with one sender and one receiver."""
        self.first = first
        self.accepted = []
        self.floor = first
        self.cursors = {key: first}
        self.senders = 1
        self.inactive = 0
        self.closed = False
        self.overflow = False
        self.await_active = True
        self.capacity = capacity
        self.room = capacity
        self.places = set()
        self.sends = Waiting()
        self.receives = Waiting()

    def copy(self):
        """The same state, on its own."""
        other = Channel.__new__(Channel)
        other.__dict__.update(self.__dict__)
        other.accepted = list(self.accepted)
        other.cursors = dict(self.cursors)
        other.places = set(self.places)
        other.sends = self.sends.copy()
        other.receives = self.receives.copy()
        return other

    def facts(self):
        """All fields as plain values, for comparing and printing."""
        plain = dict(self.__dict__)
        plain['sends'] = (list(self.sends.ids), self.sends.told)
        plain['receives'] = (list(self.receives.ids), self.receives.told)
        return plain

    def end(self):
        """The number that the next accepted message gets."""
        return self.first + len(self.accepted)

    def front(self):
        """The number of the first kept message, or the end if none is kept."""
        if not self.cursors:
            return self.end()
        return max(self.floor, min(self.cursors.values()))

    def kept(self):
        """The messages that are kept, the oldest first."""
        return self.accepted[self.front() - self.first:]

    def message(self, number):
        """The accepted message with this number."""
        return self.accepted[number - self.first]

    def is_full(self):
        """Whether as many messages are kept as the capacity says."""
        return len(self.kept()) == self.capacity

    def sends_are_ready(self):
        """Whether a send would be answered without waiting."""
        if self.closed:
            return True
        if self.cursors:
            return self.overflow or not self.is_full()
        return not self.await_active

    def close(self):
        """Closes an open channel and tells everybody; returns whether it closed it."""
        if self.closed:
            return False
        self.closed = True
        self.sends.tell_all()
        self.receives.tell_all()
        return True

    def close_if_deserted(self):
        """Closes if the last sender is gone, or every receiver and inactive one."""
        if self.senders == 0 or (not self.cursors and self.inactive == 0):
            self.close()

    def accept(self, messages):
        """The messages come last; all receives are told; the last number closes."""
        self.accepted.extend(messages)
        self.receives.tell_all()
        if self.end() == GREATEST:
            self.close()

    def is_owed_elsewhere(self, key, number):
        """Whether a receiver other than `key` has still to read the message."""
        return any(other != key and cursor <= number
                   for other, cursor in self.cursors.items())

    def remove_receiver(self, key):
        """Stream and future give up; the receiver has nothing more to read."""
        self.receives.give_up((key, 'stream'))
        self.receives.give_up((key, 'future'))
        del self.cursors[key]


def is_valid(channel):
    """'What holds after every call': numbers in their bounds, lists in order, no lost wake-up."""
    first, end, floor = channel.first, channel.end(), channel.floor
    numbers = (
        first <= floor <= end and (floor == first or floor < end)
        and all(first <= cursor <= end for cursor in channel.cursors.values())
        and len(channel.kept()) <= channel.capacity
        and 1 <= channel.capacity <= channel.room <= GREATEST
        and 0 <= channel.senders <= GREATEST and 0 <= channel.inactive <= GREATEST
        and len(channel.cursors) <= GREATEST
        and end <= GREATEST and (channel.closed or end < GREATEST)
        and (channel.closed or (channel.senders > 0
                                and (bool(channel.cursors) or channel.inactive > 0))))
    return numbers and lists_are_valid(channel) and no_wake_up_is_lost(channel)


def lists_are_valid(channel):
    """Nobody is listed twice, and only places and receivers that are there."""
    sends, receives = channel.sends, channel.receives
    return (len(set(sends.ids)) == len(sends.ids)
            and len(set(receives.ids)) == len(receives.ids)
            and set(sends.ids) <= channel.places
            and all(key in channel.cursors for key, _ in receives.ids)
            and 0 <= sends.told <= len(sends.ids)
            and 0 <= receives.told <= len(receives.ids))


def no_wake_up_is_lost(channel):
    """Who waits untold would find nothing; if sends are ready and one waits, one is told."""
    untold = channel.receives.ids[channel.receives.told:]
    idle = all(channel.cursors[key] == channel.end() and not channel.closed
               for key, _ in untold)
    lost = channel.sends_are_ready() and channel.sends.ids and channel.sends.told == 0
    return idle and not lost


def witness(seen, channel):
    """A history that shows the front, queue, cursors and end given, if any valid one does.

    It begins at the least number that is needed; what is gone are copies of a kept message.
    """
    other = channel.copy()
    front, queue = seen['front'], list(seen['queue'])
    other.cursors = dict(seen['control']['cursors'])
    other.first = min([front] + list(other.cursors.values()))
    other.accepted = (queue[:1] or [5]) * (front - other.first) + queue
    other.floor = front if queue else other.first
    return other
