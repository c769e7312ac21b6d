/* Threads and tasks that wait for a channel behind one lock: can one sleep though its call would be answered, and can
   they wake one another for ever? What is done while the lock is held is one step; waking after the lock is free,
   sleeping, and the end of a limit are steps of their own.

   SENDERS, RECEIVERS   how many threads send, and receive by a receiver of their own
   TASK_SENDERS, TASK_RECEIVERS   how many tasks do
   CAPACITY, MESSAGES   of the channel; how many messages each sender sends at most
   CALLS                how many calls a thread makes at most that never waits: it sends in overflow mode, changes the
                        settings, closes, and a receiver by which nobody reads comes and goes
   GUEST_FIRST          that receiver is there at first
   ANY                  the condition variable wakes any thread that waits on it; else the one that waits longest
   LIMITS               a call may have a limit, and its wait may end since its time is over
   SPURIOUS             so many waits may end for nothing
   DROPS                a task's send may be dropped while it waits, told or not
   ONE_BY_ONE           another rule: a thread that was woken and finds nothing wakes the next one, and never all
   PLANT                a number: this mistake is made (see `run`) */

#ifndef PLANT
#define PLANT 0
#endif
#ifndef TASK_SENDERS
#define TASK_SENDERS 0
#endif
#ifndef TASK_RECEIVERS
#define TASK_RECEIVERS 0
#endif
#define THREADS (SENDERS + RECEIVERS + 1)

#ifdef SPURIOUS
byte spurious_left = SPURIOUS;
#endif

#include "channel.pml"
#include "threads.pml"
#include "tasks.pml"

#ifdef CALLS
active proctype caller() {
  bool sender_, receiver_, all_;
  byte left = CALLS;

  do
  :: left > 0 && !closed ->
     atomic {
       begin_call();
       if
#ifdef SENDS
       /* `Inner::try_broadcast`, in overflow mode */
       :: has_reader_ -> accept()
#endif
#ifdef SETS
       :: capacity == CAPACITY -> capacity++
       :: overflow = !overflow
       :: await_active = !await_active
#endif
#ifdef GUESTS
       /* `Inner::drop_receiver`, `Inner::new_receiver`; as inactive ones, `Inner::deactivate` and `Inner::activate` */
       :: is_reader[GUEST] -> is_reader[GUEST] = false
       :: !is_reader[GUEST] -> is_reader[GUEST] = true; cursor[GUEST] = accepted
#endif
#ifdef CLOSES
       /* `Inner::close` */
       :: closed = true; tell_all()
#endif
       fi;
       end_call();
       if
       :: PLANT == 10 && closed -> sender_ = false; receiver_ = false; all_ = false
       :: else -> choose_woken(sender_, receiver_, all_)
       fi
     };
     atomic { wake(sender_, receiver_, all_) };
     left--
  :: true -> break
  od
}
#endif

/* Once nothing more can happen: who sleeps, or waits and isn't woken, has nothing to do; each thread that sleeps is
   counted once. */
active proctype rest() {
  byte thread = 0;
  byte asleep = 0;

end_rest:
  timeout ->
  atomic {
    look_for_room(is_ready_);
    assert(!is_ready_ || empty(pending_sends));
    do
    :: thread < SENDERS -> assert(!sleeps[thread] || !is_ready_); asleep = asleep + sleeps[thread]; thread++
    :: else -> break
    od;
    assert(asleep == senders);
    asleep = 0;
    do
    :: thread < SENDERS + RECEIVERS ->
       assert(!sleeps[thread] || (cursor[thread - SENDERS] == accepted && !closed));
       if
       :: sleeps[thread] && round_of[thread] == rounds -> asleep++
       :: else
       fi;
       thread++
    :: else -> break
    od;
    assert(asleep == caught_up_receivers + due_receivers);
    thread = RECEIVERS;
    do
    :: thread < RECEIVERS + TASK_RECEIVERS -> assert(cursor[thread] == accepted); thread++
    :: else -> break
    od
  }
}

init {
  byte next = 0;

  atomic {
    do
    :: next < READERS - 1 -> is_reader[next] = true; next++
    :: else -> break
    od;
#ifdef GUEST_FIRST
    is_reader[GUEST] = true;
#endif
    next = 0;
    do
    :: next < SENDERS -> run sender(next); next++
    :: else -> break
    od;
    next = 0;
    do
    :: next < RECEIVERS -> run receiver(next); next++
    :: else -> break
    od;
    next = 0;
    do
    :: next < TASK_SENDERS -> run task_sender(next); next++
    :: else -> break
    od;
    next = 0;
    do
    :: next < TASK_RECEIVERS -> run task_receiver(next); next++
    :: else -> break
    od
  }
}
