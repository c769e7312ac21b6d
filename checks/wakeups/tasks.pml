/* Tasks that send and receive by futures, each polled when it is woken, and dropped at any time: `Send` and `Recv`, in
   `crates/async_broadcast/src/future`. A `Recv` that is dropped and made again is one that polls once more. */

proctype task_sender(byte me) {
  bool sender_, receiver_, all_, must_wait, may_drop;
  byte left = MESSAGES;

#ifdef DROPS
  if
  :: may_drop = true
  :: may_drop = false
  fi;
#endif
  is_woken[me] = true;
  do
  :: left > 0 ->
end_pending:
     if
     :: is_woken[me] ->
        /* `Inner::poll_send` */
        atomic {
          is_woken[me] = false;
          attempt_send(must_wait);
          if
          :: must_wait ->
             /* it keeps its place in the list, unless it was told */
             if
             :: !(pending_sends ?? [eval(me)]) -> pending_sends ! me
             :: (pending_sends ?? [eval(me)]) && is_told[me] -> pending_sends ?? eval(me); pending_sends ! me
             :: else
             fi;
             is_told[me] = false
          :: else ->
             if
             :: pending_sends ?? [eval(me)] -> pending_sends ?? eval(me); is_told[me] = false
             :: else
             fi;
progress_task_sent:
             left--;
             /* an answered send tells the next one, if sends are still ready */
             look_for_room(is_ready_);
             if
             :: is_ready_ && PLANT != 12 -> tell_send()
             :: else
             fi;
             is_woken[me] = (left > 0)
          fi;
          choose_woken(sender_, receiver_, all_)
        };
        atomic { wake(sender_, receiver_, all_) }
     :: may_drop && pending_sends ?? [eval(me)] ->
        /* `Send::drop`, which is `Inner::end_send`: if it was told, the next one is */
        atomic {
          pending_sends ?? eval(me);
          if
          :: is_told[me] && PLANT != 13 -> is_told[me] = false; tell_send()
          :: else -> is_told[me] = false
          fi;
          choose_woken(sender_, receiver_, all_)
        };
        atomic { wake(sender_, receiver_, all_) };
        break
     fi
  :: else -> break
  od;
  is_woken[me] = false
}

proctype task_receiver(byte number) {
  bool sender_, receiver_, all_;
  byte answer;
  byte me = TASK_SENDERS + number;
  byte reader = RECEIVERS + number;

  is_woken[me] = true;
  do
  :: true ->
end_pending:
     is_woken[me];
     /* `Inner::poll_future` */
     atomic {
       is_woken[me] = false;
       try_recv(reader, answer);
       is_woken[me] = (answer == MESSAGE);
       choose_woken(sender_, receiver_, all_)
     };
     atomic { wake(sender_, receiver_, all_) };
     if
     :: answer == ENDED -> break
     :: else
     fi
  od
}
