"""Compares the definitions with the machine, a step at a time."""

import replies
import runs
import states
from channel import GREATEST, Channel, is_valid, witness
from machine import READS, Choice, outcomes, step
from library import call as apply
from receiving import missed, unread
from lists import Waiting
from translate import CLONES, IS_CLONE, history, numbers_in, value, view


class Differs(Exception):
    """The definitions and the machine say different things."""


class Comparison:
    """Both sides, and what has been counted."""

    def __init__(self, definitions, random):
        """The definitions, and where random choices come from."""
        self.definitions = definitions
        self.random = random
        self.replies = 0
        self.absent = set()

    def say(self, name, *arguments):
        """What a definition says at these arguments."""
        function = self.definitions.named(name)
        if function is None:
            self.absent.add(name)
            return None
        return apply(function, *arguments)

    def agree(self, name, arguments, wanted, where):
        """The definition must say what the machine says; one that isn't there says nothing."""
        found = self.say(name, *arguments)
        if name not in self.absent and found != wanted:
            raise Differs(f'{name} says {found}, the machine {wanted}\n{where}')

    def domains(self, reply, **kinds):
        """The values that quantifiers go through where no equation finds any."""
        numbers = numbers_in(reply)
        options = [('None',)] + [('Some', number) for number in numbers]
        self.definitions.domains = {'T': numbers, 'ℕ': numbers, 'Option': options, **kinds}

    def step(self, channel, theme):
        """Compares all replies to one random call; returns a step of the run."""
        call = states.any_call(self.random, channel, theme)
        ids = self.random.sample(states.IDS, 3)
        allowed = outcomes(channel, call, ids, CLONES)
        where = f'state {channel.facts()}\ncall {call}'
        before = history(channel)
        self.seen(channel, before, where)
        for reply, after in allowed:
            self.legal(channel, call, reply, True, where)
            self.agree('next', (before, value(call), value(reply)), history(after),
                       f'{where}\nreply {reply}')
        legal = [reply for reply, _ in allowed]
        tried = replies.replies_for(call, channel, ids, self.random)
        for reply in self.random.sample(tried, min(8, len(tried))):
            self.legal(channel, call, reply, reply in legal, where)
        if not allowed:
            return None
        reply, after = self.random.choice(allowed)
        chance = self.random.random()
        if chance < 0.1:
            self.one_call(channel, call, reply, after)
            self.accessors(channel)
        elif chance < 0.5:
            self.domains(value(reply))
            self.agree('Steps', (IS_CLONE, view(channel), value(call), value(reply),
                                 view(after)), True, where)
            self.polls(channel, call, reply, f'{where}\nreply {reply}')
        return channel, call, reply, after

    def accessors(self, channel):
        """Every call that only reads, with right and wrong replies."""
        for name in READS:
            right, _ = step(channel, (name,), Choice(False, 0, CLONES[0]))
            for held in replies.values_for((name,), channel, ()):
                self.legal(channel, (name,), (name, held), (name, held) == right,
                           f'state {channel.facts()}\ncall {name}\nreply {held}')

    def seen(self, channel, before, where):
        """What is seen of a state."""
        self.agree('view_of', (before,), view(channel), where)
        self.agree('sends_are_ready', (view(channel),), channel.sends_are_ready(), where)

    def legal(self, channel, call, reply, wanted, where):
        """Whether a reply is legal."""
        self.replies += 1
        reply_value = value(reply)
        self.domains(reply_value)
        self.agree('Legal', (IS_CLONE, view(channel), value(call), reply_value), wanted,
                   f'{where}\nreply {reply}')

    def one_call(self, channel, call, reply, after):
        """The contract of one call, with the right view after it and with a wrong one."""
        before, call_value, reply_value = history(channel), value(call), value(reply)
        where = f'state {channel.facts()}\ncall {call}\nreply {reply}'
        self.agree('IsValid', (before,), True, where)
        self.agree('IsValid', (history(after),), True, where)
        self.answers(channel, call, reply, after, where)
        self.domains(reply_value, History=[before])
        self.agree('IsShown', (view(channel),), True, where)
        self.agree('IsShown', ({**view(channel), 'queue': (5,) * 9},), False, where)
        self.agree('IsPossible', (IS_CLONE, call_value, reply_value), True, where)
        self.agree('IsPossible', (IS_CLONE, call_value, ('Overflow', 5)), False, where)
        no_room = {**before, 'control': {**before['control'], 'room': 0}}
        self.domains(reply_value, History=[no_room])
        self.agree('IsPossible', (IS_CLONE, call_value, reply_value), False, where)
        self.polls(channel, call, reply, where)

    def answers(self, channel, call, reply, after, where):
        """`Answers` and `Steps`: with the right view, a wrong one, and a reply that isn't legal."""
        before, both = history(channel), (value(call), value(reply))
        old, new = view(channel), view(after)
        far = {**before, 'accepted': before['accepted'] + (5,)}
        invalid = {**before, 'first': before['first'] + 9, 'floor': before['floor'] + 9}
        cases = [(old, both, new, True), (old, both, {**new, 'end': new['end'] + 1}, False),
                 ({**old, 'queue': (5,) * 9}, both, new, False)]
        wrong = value(call), ('Overflow', 5)
        next_wrong = self.say('next', before, *wrong)
        cases.append((old, wrong, self.say('view_of', next_wrong), False))
        for seen, (call_value, reply_value), then, wanted in cases:
            self.domains(reply_value, History=[before, far, invalid, self.bent(before)])
            arguments = (IS_CLONE, seen, call_value, reply_value, then)
            self.agree('Answers', arguments, wanted, where)
            if seen is old:
                self.agree('Steps', arguments, wanted, where)
        self.answers_of_clone()
        for capacity in (0, GREATEST + 1):
            call_value, reply_value = ('SetCapacity', capacity), ('SetCapacity', ('Ok', ('Unit',)))
            then = self.say('view_of', self.say('next', before, call_value, reply_value))
            self.domains(reply_value, History=[before])
            self.agree('Answers', (IS_CLONE, old, call_value, reply_value, then), False, where)

    def answers_of_clone(self):
        """`Answers` looks at no other state, as one where the reply gives a key in use."""
        old = Channel(2, 0, 0)
        old.accept([10])
        other = old.copy()
        other.cursors[1] = 1
        other.receives = Waiting([(1, 'stream')], 0)
        call, reply = ('CloneReceiver', 0), ('CloneReceiver', ('Ok', 1))
        _, new = step(old, call, Choice(False, 1, CLONES[0]))
        self.domains(reply, History=[history(old), history(other)])
        self.agree('Answers', (IS_CLONE, view(old), call, reply, view(new)), True, 'a clone')

    def bent(self, before):
        """A history that shows the same and isn't valid: it begins after its floor."""
        if before['floor'] > before['first'] or before['first'] < 2:
            return before
        return {**before, 'first': before['first'] - 1, 'floor': before['first'] - 2,
                'accepted': (5,) + before['accepted']}

    def polls(self, channel, call, reply, where):
        """Polls and their tries."""
        who = runs.polled(channel, call)
        is_poll = who is not None and (call[0] != 'PollSend' or call[1] in channel.places)
        self.agree('must_wait', (value(reply),), runs.must_wait(reply), where)
        for key in states.IDS[:2]:
            for name, count in (('unread', unread), ('missed', missed)):
                self.agree(name, (view(channel), key), count(channel, key), where)
        count = len(channel.sends.ids) + len(channel.receives.ids)
        self.agree('listener_count', (view(channel)['control'],), count, where)
        self.agree('told_count', (view(channel)['control'],),
                   channel.sends.told + channel.receives.told, where)
        self.agree('is_poll', (view(channel)['control'], value(call)), is_poll, where)
        nothing = False
        if who is not None:
            attempt = ('AttemptSend', call[2]) if call[0] == 'PollSend' else ('TryRecv', call[1])
            tried, _ = step(channel, attempt, Choice(False, 0, CLONES[0]))
            nothing = tried[1][0] == 'Wait' or tried[1] == ('Ok', ('Err', ('Empty',)))
        self.agree('try_finds_nothing', (view(channel), value(call)), nothing, where)
        told = who is not None and who[0].is_told(who[1])
        listed = who is not None and who[1] in who[0].ids
        self.agree('polls_told', (view(channel)['control'], value(call)), told, where)
        self.agree('polls_listed', (view(channel)['control'], value(call)), listed, where)

    def validity(self):
        """Whether a state is valid that may be just not."""
        choose = states.bent_state if self.random.random() < 0.8 else states.any_state
        channel = choose(self.random)
        where = f'state {channel.facts()}'
        self.agree('IsValid', (history(channel),), is_valid(channel), where)
        seen = states.bent_view(self.random, view(channel))
        other = witness(seen, channel)
        valid = is_valid(other) and view(other) == seen
        self.domains((), History=[history(other)])
        where = f'view {seen}'
        self.agree('IsValidView', (seen,), valid, where)
        self.agree('IsShown', (seen,), valid, where)
        first, end = channel.first, channel.end()
        for number in (max(0, first - 1), first, first + 1, max(first, end - 1), end):
            wanted = ('Some', channel.message(number)) if first <= number < end else ('None',)
            self.agree('numbered', (history(channel), number), wanted, where)

    def opening(self):
        """A new channel, by both."""
        channel = states.opening(self.random)
        key = next(iter(channel.cursors))
        self.agree('opening', (channel.capacity, channel.first, key), history(channel),
                   f'state {channel.facts()}')
        return channel
