/* Threads that send and receive by blocking calls: `Lock::make_until` and `make_or_wait`, in
   `crates/async_broadcast/src/lock/waiting.rt`. */

proctype sender(byte me) {
  bool sender_, receiver_, all_, must_wait, is_over, has_limit;
  byte left = MESSAGES;

  do
  :: left > 0 && !closed ->
     /* a try that doesn't wait */
     atomic { attempt_send(must_wait); choose_woken(sender_, receiver_, all_) };
     atomic { wake(sender_, receiver_, all_) };
     is_over = false;
#ifdef LIMITS
     if
     :: has_limit = true
     :: has_limit = false
     fi;
#endif
     do
     :: must_wait && !is_over ->
        /* a try that waits: up to the wait */
        atomic {
          attempt_send(must_wait);
          if
          :: must_wait ->
             /* `Threads::begin_waiting` */
             senders++;
             choose_woken(sender_, receiver_, all_);
             wake(sender_, receiver_, all_);
             send_ready ! me;
             sleeps[me] = true
          :: else -> choose_woken(sender_, receiver_, all_)
          fi
        };
        atomic { wake(sender_, receiver_, all_) };
        if
        :: must_wait ->
           /* `Limit::wait` */
end_asleep:
           if
           :: !sleeps[me]
#ifdef LIMITS
           :: atomic { sleeps[me] && has_limit -> send_ready ?? eval(me); sleeps[me] = false; is_over = true }
#endif
#ifdef SPURIOUS
           :: atomic { sleeps[me] && spurious_left > 0 -> send_ready ?? eval(me); sleeps[me] = false; spurious_left-- }
#endif
           fi;
           /* the try after the wait, and `Threads::end_waiting` */
           atomic {
             attempt_send(must_wait);
             senders--;
#if PLANT != 3
             is_sender_woken = false;
#endif
             if
             :: (PLANT == 4 && is_over) || PLANT == 5 -> sender_ = false; receiver_ = false; all_ = false
             :: else -> choose_woken(sender_, receiver_, all_)
             fi
           };
           atomic { wake(sender_, receiver_, all_) }
        :: else
        fi
     :: else -> break
     od;
progress_sent:
     left--
  :: true -> break
  od
}

proctype receiver(byte key) {
  bool sender_, receiver_, all_, is_over, has_limit, its_closed;
  byte answer, its_accepted;
  byte me = SENDERS + key;

  do
  :: true ->
     atomic { try_recv(key, answer); choose_woken(sender_, receiver_, all_) };
     atomic { wake(sender_, receiver_, all_) };
     is_over = false;
#ifdef LIMITS
     if
     :: has_limit = true
     :: has_limit = false
     fi;
#endif
     do
     :: answer == EMPTY && !is_over ->
        atomic {
          try_recv(key, answer);
          if
          :: answer == EMPTY ->
             /* `Threads::begin_waiting` */
             caught_up_receivers++;
#if PLANT != 6
             known_accepted = accepted;
             known_closed = closed;
#endif
             is_misled = false;
             its_accepted = known_accepted;
             its_closed = known_closed;
             round_of[me] = rounds;
             choose_woken(sender_, receiver_, all_);
             wake(sender_, receiver_, all_);
             message_ready ! me;
             sleeps[me] = true
          :: else -> choose_woken(sender_, receiver_, all_)
          fi
        };
        atomic { wake(sender_, receiver_, all_) };
        if
        :: answer == EMPTY ->
end_asleep:
           if
           :: !sleeps[me]
#ifdef LIMITS
           :: atomic { sleeps[me] && has_limit -> message_ready ?? eval(me); sleeps[me] = false; is_over = true }
#endif
#ifdef SPURIOUS
           :: atomic {
                sleeps[me] && spurious_left > 0 -> message_ready ?? eval(me);
                sleeps[me] = false;
                spurious_left--
              }
#endif
           fi;
           atomic {
             try_recv(key, answer);
             /* `Threads::end_waiting` */
             if
             :: round_of[me] == rounds ->
                is_misled = (answer == EMPTY);
                if
                :: its_accepted == known_accepted && its_closed == known_closed -> caught_up_receivers--
                :: else -> due_receivers--
                fi;
#if PLANT != 8
                is_receiver_woken = false
#endif
             :: else
             fi;
             if
             :: PLANT == 9 && is_over -> sender_ = false; receiver_ = false; all_ = false
             :: else -> choose_woken(sender_, receiver_, all_)
             fi
           };
           atomic { wake(sender_, receiver_, all_) }
        :: else
        fi
     :: else -> break
     od;
     if
     :: answer == MESSAGE ->
progress_received:
        skip
     :: answer == ENDED -> break
     :: else
     fi
  :: true -> break
  od
}
