/* The channel behind its lock: what is done while the lock is held. Each step names the function that it stands for: of
   `Inner` in `crates/bcast_core`, of `Threads` in `crates/async_broadcast/src/lock/threads.rt`. */

#define READERS (RECEIVERS + TASK_RECEIVERS + 1)
#define GUEST (READERS - 1)

/* How many messages were accepted; who is there to read, and how many each has read. The last reader is a guest: a
   receiver by which nobody reads, and that comes and goes. */
byte accepted = 0;
bool is_reader[READERS];
byte cursor[READERS];
byte capacity = CAPACITY;
bool closed = false;
bool overflow = false;
bool await_active = true;

/* `Threads` */
byte senders = 0;
bool is_sender_woken = false;
byte caught_up_receivers = 0;
byte due_receivers = 0;
byte known_accepted = 0;
bool known_closed = false;
bool is_receiver_woken = false;
bool is_misled = false;
byte rounds = 0;

/* Who waits on which condition variable, the longest first; which round each thread was counted in. */
chan send_ready = [THREADS] of { byte };
chan message_ready = [THREADS] of { byte };
bool sleeps[THREADS];
byte round_of[THREADS];

/* The tasks that wait to send, in the order of coming; who of them is told, and which task is woken. */
chan pending_sends = [TASK_SENDERS + 1] of { byte };
bool is_told[TASK_SENDERS + 1];
bool is_woken[TASK_SENDERS + TASK_RECEIVERS + 1];

hidden byte key_;
hidden byte least_;
hidden byte turns_;
hidden byte who_;
hidden byte has_reader_;
hidden byte is_ready_;
hidden byte was_ready_;

/* `Inner::sends_are_ready`, into `is_ready` */
inline look_for_room(is_ready) {
  least_ = accepted;
  has_reader_ = false;
  key_ = 0;
  do
  :: key_ < READERS && is_reader[key_] ->
     has_reader_ = true;
     if
     :: cursor[key_] < least_ -> least_ = cursor[key_]
     :: else
     fi;
     key_++
  :: key_ < READERS && !is_reader[key_] -> key_++
  :: else -> break
  od;
  is_ready = closed || (has_reader_ && (overflow || accepted - least_ < capacity)) || (!has_reader_ && !await_active)
}

/* Tells the first task that waits to send, unless one is told. */
inline tell_send() {
  if
  :: nempty(pending_sends) ->
     pending_sends ? <who_>;
     is_woken[who_] = is_woken[who_] || !is_told[who_];
     is_told[who_] = true
  :: empty(pending_sends)
  fi
}

/* Tells all tasks, since the channel was closed. */
inline tell_all() {
  key_ = 0;
  do
  :: key_ < TASK_SENDERS + TASK_RECEIVERS -> is_woken[key_] = true; key_++
  :: else -> break
  od
}

/* Tells all tasks that wait for a message. */
inline tell_receives() {
  key_ = TASK_SENDERS;
  do
  :: key_ < TASK_SENDERS + TASK_RECEIVERS -> is_woken[key_] = true; key_++
  :: else -> break
  od
}

/* At the beginning and at the end of each call: if sends are ready that were not, one task is told. */
inline begin_call() { look_for_room(was_ready_) }

inline end_call() {
  look_for_room(is_ready_);
  if
  :: is_ready_ && !was_ready_ && PLANT != 11 -> tell_send()
  :: else
  fi
}

/* A message is accepted. In overflow mode the oldest is dropped, and who has not read it goes on behind it. */
inline accept() {
  accepted++;
  key_ = 0;
  do
  :: key_ < READERS ->
     if
     :: accepted - cursor[key_] > capacity -> cursor[key_] = accepted - capacity
     :: else
     fi;
     key_++
  :: else -> break
  od;
  tell_receives()
}

/* `Inner::attempt_send`: whether it must wait, into `must_wait` */
inline attempt_send(must_wait) {
  begin_call();
  must_wait = !was_ready_;
  if
  :: was_ready_ && !closed && has_reader_ -> accept()
  :: else
  fi;
  end_call()
}

#define MESSAGE 0
#define EMPTY 1
#define ENDED 2

/* `Inner::try_recv` */
inline try_recv(key, answer) {
  begin_call();
  if
  :: cursor[key] < accepted -> cursor[key]++; answer = MESSAGE
  :: cursor[key] == accepted && closed -> answer = ENDED
  :: cursor[key] == accepted && !closed -> answer = EMPTY
  fi;
  end_call()
}

/* `Threads::choose_woken`: which threads to wake, into these three */
inline choose_woken(sender, receiver, all) {
  sender = false;
  receiver = false;
  all = false;
  if
  :: senders + caught_up_receivers + due_receivers == 0 -> skip
  :: else ->
     /* `choose_sender` */
     look_for_room(is_ready_);
     if
     :: senders > 0 && !is_sender_woken && is_ready_ && PLANT != 2 ->
        sender = true;
        is_sender_woken = true
     :: else
     fi;
     /* `move_receivers` */
     if
     :: accepted != known_accepted || closed != known_closed ->
        known_accepted = accepted;
        known_closed = closed;
        due_receivers = due_receivers + caught_up_receivers;
        caught_up_receivers = 0
     :: else
     fi;
     /* `choose_receivers` */
     if
     :: due_receivers == 0 || PLANT == 1 -> skip
#ifndef ONE_BY_ONE
     :: due_receivers > 0 && is_misled && PLANT != 1 ->
        all = true;
        due_receivers = 0;
#if PLANT != 7
        caught_up_receivers = 0;
#endif
        rounds = (rounds + 1) % 16
#endif
     :: else ->
        if
        :: !is_receiver_woken -> receiver = true; is_receiver_woken = true
        :: else
        fi
     fi;
     is_misled = false
  fi
}

/* `Condvar::notify_one` */
inline notify_one(queue) {
  if
  :: empty(queue)
  :: nempty(queue) ->
#ifdef ANY
     if
     :: len(queue) >= 1 -> turns_ = 0
     :: len(queue) >= 2 -> turns_ = 1
     :: len(queue) >= 3 -> turns_ = 2
     :: len(queue) >= 4 -> turns_ = 3
     fi;
     do
     :: turns_ > 0 -> queue ? who_; queue ! who_; turns_--
     :: else -> break
     od;
#endif
     queue ? who_;
     sleeps[who_] = false
  fi
}

/* `Condvar::notify_all` */
inline notify_all(queue) {
  do
  :: nempty(queue) -> queue ? who_; sleeps[who_] = false
  :: empty(queue) -> break
  od
}

/* `Woken::wake`, with the lock or without it */
inline wake(sender, receiver, all) {
  if
  :: sender -> notify_one(send_ready)
  :: else
  fi;
  if
  :: all -> notify_all(message_ready)
  :: !all && receiver -> notify_one(message_ready)
  :: else
  fi;
  sender = false;
  receiver = false;
  all = false
}
