//! What all three handles ask of their channel, and how they print.

macro_rules! shared {
    ($handle:ident) => {
        impl<T> $handle<T> {
            pub fn capacity(&self) -> usize {
                self.channel.count("Capacity")
            }

            /// A positive capacity is the condition of the call.
            pub fn set_capacity(&mut self, new_cap: usize) {
                assert!(new_cap > 0, "capacity cannot be zero");
                self.channel.make(&format!("SetCapacity {new_cap}"));
            }

            pub fn overflow(&self) -> bool {
                self.channel.flag("Overflow")
            }

            pub fn set_overflow(&mut self, overflow: bool) {
                self.channel.make(&format!("SetOverflow {overflow}"));
            }

            pub fn await_active(&self) -> bool {
                self.channel.flag("AwaitActive")
            }

            pub fn set_await_active(&mut self, await_active: bool) {
                self.channel.make(&format!("SetAwaitActive {await_active}"));
            }

            pub fn close(&self) -> bool {
                self.channel.flag("Close")
            }

            pub fn is_closed(&self) -> bool {
                self.channel.flag("IsClosed")
            }

            pub fn is_empty(&self) -> bool {
                self.channel.flag("IsEmpty")
            }

            pub fn is_full(&self) -> bool {
                self.channel.flag("IsFull")
            }

            pub fn len(&self) -> usize {
                self.channel.count("Len")
            }

            pub fn receiver_count(&self) -> usize {
                self.channel.count("ReceiverCount")
            }

            pub fn inactive_receiver_count(&self) -> usize {
                self.channel.count("InactiveReceiverCount")
            }

            pub fn sender_count(&self) -> usize {
                self.channel.count("SenderCount")
            }
        }

        impl<T: std::fmt::Debug> std::fmt::Debug for $handle<T> {
            fn fmt(&self, f: &mut std::fmt::Formatter<'_>) -> std::fmt::Result {
                f.debug_struct(stringify!($handle)).finish_non_exhaustive()
            }
        }
    };
}
pub(crate) use shared;
