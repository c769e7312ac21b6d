"""An executable machine of the channel's rules, written from docs/RULES.md.

A call is a tuple: its name and its arguments. A reply is a tuple: the name of its call and,
if the call returns something, that value. A value of an enum is a tuple too: the name of the
variant and what it holds, as ('Ok', ('Some', 5)). Numbers and flags are plain.

`outcomes` gives every reply that the rules allow to a call, each with the state after it.
"""

import handles
import receiving
import sending


class Choice:
    """What the rules leave free: whether memory is refused, a new id, a message's clone."""

    def __init__(self, refused, new_id, clone):
        """`clone` takes a message and returns the value that its clone has."""
        self.refused = refused
        self.new_id = new_id
        self.clone = clone


CHANGES = {
    'TryBroadcast': lambda channel, choice, message: sending.send_reply(channel, message),
    'TryBroadcastAll': lambda channel, choice, all_: sending.send_all_reply(channel, all_),
    'AttemptSend': lambda channel, choice, message: sending.attempt_reply(channel, message),
    'BeginSend': sending.begin_send,
    'PollSend': sending.poll_send,
    'EndSend': sending.end_send,
    'TryRecv': receiving.try_recv,
    'PollFuture': receiving.poll_future,
    'EndFuture': receiving.end_future,
    'PollRecv': receiving.poll_recv,
    'PollNext': receiving.poll_next,
    'Close': lambda channel, choice: channel.close(),
    'SetCapacity': handles.set_capacity,
    'SetOverflow': handles.set_overflow,
    'SetAwaitActive': handles.set_await_active,
    'NewSender': handles.new_sender,
    'CloneInactive': handles.clone_inactive,
    'Deactivate': handles.deactivate,
    'NewReceiver': handles.new_receiver,
    'Activate': handles.activate,
    'ActivateCloned': handles.activate_cloned,
    'CloneReceiver': handles.clone_receiver,
    'DropSender': handles.drop_sender,
    'DropInactive': handles.drop_inactive,
    'DropReceiver': handles.drop_receiver,
}

# 'Closing and settings': the calls that only read
READS = {
    'Capacity': lambda channel: channel.capacity,
    'Overflow': lambda channel: channel.overflow,
    'AwaitActive': lambda channel: channel.await_active,
    'Len': lambda channel: len(channel.kept()),
    'IsEmpty': lambda channel: not channel.kept(),
    'IsFull': lambda channel: channel.is_full(),
    'IsClosed': lambda channel: channel.closed,
    'IsTerminated': lambda channel: channel.closed and not channel.kept(),
    'ReceiverCount': lambda channel: len(channel.cursors),
    'InactiveReceiverCount': lambda channel: channel.inactive,
    'SenderCount': lambda channel: channel.senders,
    'EndNumber': lambda channel: channel.end(),
}


def step(channel, call, choice):
    """Makes the call on a copy: (the reply, the state after), or None if the id is in use."""
    after, name = channel.copy(), call[0]
    if name in READS:
        return (name, READS[name](after)), after
    were_ready = channel.sends_are_ready()
    value = CHANGES[name](after, choice, *call[1:])
    if value is None and takes_id(name):
        return None
    # 'Who waits': sends may be ready that were not before.
    if name != 'PollSend' and after.sends_are_ready() and not were_ready:
        after.sends.tell_first()
    return ((name,) if value is None else (name, value)), after


def takes_id(name):
    """Whether the call gives a new key or place."""
    return name in ('BeginSend', 'NewReceiver', 'Activate', 'ActivateCloned', 'CloneReceiver')


def outcomes(channel, call, new_ids, clones):
    """Every (reply, state after) that the rules allow, new ids and clones from those given."""
    results = []
    ids = new_ids if takes_id(call[0]) else new_ids[:1]
    for refused in (False, True):
        for new_id in ids:
            for clone in clones:
                result = step(channel, call, Choice(refused, new_id, clone))
                if result is not None and not contains(results, result):
                    results.append(result)
    return results


def contains(results, result):
    """Whether the same reply with the same state is in the list."""
    return any(reply == result[0] and after.facts() == result[1].facts()
               for reply, after in results)
