"""Compares what the definitions and the machine say of whole lists of calls."""

import runs
from library import Function
from translate import IS_CLONE, OTHER_CLONE, history, is_clone, value, view

LAWS = ('NextIsValid', 'RepliesAreExact', 'ReceivedIsGiven', 'ViewsAreShown', 'MissedWereDropped',
        'DeliveriesAreExact', 'DroppedNumbersRise', 'DeliveriesTile', 'ToldPollsComeToRest',
        'PollsWaitWhereTriesFindNothing')


# calls whose reply decides the state after them, or says what they drop
DECIDED_BY_REPLY = ('BeginSend', 'NewReceiver', 'Activate', 'ActivateCloned', 'CloneReceiver',
                    'SetCapacity', 'TryBroadcast', 'AttemptSend', 'PollSend')


class WholeRun:
    """One run, beside its values for the definitions."""

    def __init__(self, comparison, steps):
        """`steps` are (state before, call, reply, state after)."""
        self.comparison = comparison
        self.steps = steps
        self.start = steps[0][0]
        self.end = steps[-1][3]
        self.calls = tuple(value(call) for _, call, _, _ in steps)
        self.replies = tuple(value(reply) for _, _, reply, _ in steps)
        self.where = '\n'.join([f'from {self.start.facts()}']
                               + [f'{call} -> {reply}' for _, call, reply, _ in steps])

    def agree(self, name, arguments, wanted):
        """As for a step."""
        self.comparison.agree(name, arguments, wanted, self.where)

    def compare(self):
        """The run itself, what it gives, what it drops, and who is told."""
        begin = history(self.start)
        whole = (begin, self.calls, self.replies)
        self.comparison.domains(self.replies)
        self.agree('IsRun', (IS_CLONE,) + whole, True)
        self.agree('IsRun', (IS_CLONE, begin, self.calls, self.replies[:-1]), False)
        self.agree('IsRun', (IS_CLONE, begin, self.calls[:-1], self.replies), False)
        self.agree('end_of_run', whole, history(self.end))
        for key in (0, 1, 2, 7):
            found, cursor = runs.life(key, self.start, self.steps)
            self.agree('last_cursor_of', (key,) + whole,
                       ('None',) if cursor is None else ('Some', cursor))
            self.agree('deliveries_of', (key,) + whole, tuple(
                ('None',) if message is None else ('Some', message) for message in found))
        self.agree('dropped_in', whole, tuple(runs.dropped(self.steps)))
        for before, call, reply, after in self.steps:
            self.agree('dropped_by', (history(before), value(call), value(reply)),
                       tuple(runs.dropped_in_step(before, after)))
        self.agree('told_polls', whole, runs.told_in_a_row(self.steps))
        self.agree('told_polls', (begin, self.calls, ()), 0)
        self.agree('told_polls', (begin, (), self.replies), 0)
        self.agree('ComesToRest', (IS_CLONE,) + whole, self.comes_to_rest())
        self.statements(self.steps, self.replies)
        random = self.comparison.random.random()
        if random < 0.4:
            self.bent()
        elif random < 0.6:
            self.laws(begin)

    def comes_to_rest(self):
        """Whether few polls of told ones follow in a row."""
        self.comparison.definitions.domains.update(
            {'Call': self.calls[:1], 'Reply': self.replies[:1]})
        count = len(self.start.sends.ids) + len(self.start.receives.ids)
        few = 2 * runs.told_in_a_row(self.steps) <= count * (count + 1)
        who = runs.polled(self.start, self.steps[0][1])
        told = self.start.sends.told + self.start.receives.told
        waits = runs.must_wait(self.steps[0][2])
        return few and (who is None or told > 0 or who[1] not in who[0].ids or waits)

    def statements(self, steps, replies):
        """Whether deliveries are exact, and what was missed was dropped."""
        begin = history(self.start)
        gone = list(range(self.start.first, self.start.floor))
        exact = {key: runs.is_exact(key, self.start, steps, self.end, is_clone)
                 for key in self.start.cursors}
        for key, wanted in exact.items():
            self.agree('AreExact', (OTHER_CLONE, begin, key, self.start.cursors[key], self.calls,
                                    replies), wanted)
        self.agree('AreAllExact', (IS_CLONE, begin, self.calls, replies), all(exact.values()))
        if self.comparison.random.random() < 0.15:
            self.agree('AtEachPoint', (self.all_exact(), begin, self.calls, replies),
                       self.exact_at_each_point(steps))
        self.agree('MissesWhatWasDropped', (tuple(gone), begin, self.calls, replies),
                   runs.missed_were_dropped(steps, gone))

    def all_exact(self):
        """`AreAllExact` for the clones that there are."""
        function = self.comparison.definitions.named('AreAllExact')
        return function and Function(function.body, function.arity, (IS_CLONE,))

    def exact_at_each_point(self, steps):
        """Whether from each point on every receiver's deliveries are exact."""
        points = [step[0] for step in steps] + [self.end]
        return all(runs.is_exact(key, point, steps[index:], self.end, is_clone)
                   for index, point in enumerate(points) for key in point.cursors)

    def bent(self):
        """The same with a reply that gives another message, or tells of one or two missed."""
        places = [index for index, (_, call, reply, _) in enumerate(self.steps)
                  if call[0] in runs.RECEIVES and runs.given(call[1], call, reply)]
        if places:
            index = self.comparison.random.choice(places)
            name = self.steps[index][1][0]
            for missed in (0, 1, 2):
                self.with_reply(index, (name, BENT[name](missed)), missed == 0)
        index = self.comparison.random.randrange(len(self.steps))
        if self.steps[index][1][0] not in runs.RECEIVES:
            self.with_reply(index, ('TryRecv', ('Ok', ('Ok', 5))), True)

    def with_reply(self, index, reply, is_illegal):
        """The run with another reply at this place."""
        steps, replies = list(self.steps), list(self.replies)
        before, call, _, after = self.steps[index]
        if call[0] in DECIDED_BY_REPLY:
            return
        steps[index], replies[index] = (before, call, reply, after), value(reply)
        self.statements(steps, tuple(replies))
        self.comparison.domains(tuple(replies))
        if is_illegal:
            self.agree('IsRun', (IS_CLONE, history(self.start), self.calls, tuple(replies)),
                       False)

    def laws(self, begin):
        """The laws hold of this run, of its parts, and of its first call."""
        half = len(self.steps) // 2
        self.comparison.definitions.domains.update({
            'ℕ': sorted({0, 1, 2, 7} | set(self.start.cursors.values())), 'T': [10, 1010],
            'History': [begin], 'View': [view(self.start)], 'Call': self.calls[:1],
            'Reply': self.replies[:1], 'List Call': [self.calls[:half], self.calls[half:]],
            'List Reply': [self.replies[:half], self.replies[half:]]})
        for name in LAWS:
            argument = () if name == 'ViewsAreShown' else IS_CLONE
            self.agree(name, (argument,), True)


def other_message(value_of):
    """A reply that gives the message 5, or tells how many were missed."""
    return lambda missed: value_of(('Err', ('Overflowed', missed)) if missed else ('Ok', 5))


BENT = {
    'TryRecv': other_message(lambda found: ('Ok', found)),
    'PollFuture': other_message(lambda found: ('Ok', ('Ready', found))),
    'PollRecv': other_message(lambda found: ('Ok', ('Ready', ('Some', found)))),
    'PollNext': lambda missed: ('Ok', ('Ready', ('Some', ('Pair', 5, missed)))),
}
