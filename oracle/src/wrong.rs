//! Deliberate mistakes. A machine makes at most one of them, chosen by name at run time, so that
//! a comparison can be shown to catch each. Every mistake is tested at one place of the engine.

use std::fmt;

/// Declares the mistakes with their names and what is wrong about them.
macro_rules! mistakes {
    ($($variant:ident, $name:literal, $what:literal;)*) => {
        #[derive(Clone, Copy, Debug, PartialEq, Eq)]
        pub enum Wrong {
            $($variant,)*
        }

        impl Wrong {
            pub const ALL: &'static [Wrong] = &[$(Wrong::$variant,)*];

            pub fn name(self) -> &'static str {
                match self {
                    $(Wrong::$variant => $name,)*
                }
            }

            /// What the mistaken engine does.
            pub fn what(self) -> &'static str {
                match self {
                    $(Wrong::$variant => $what,)*
                }
            }
        }
    };
}

mistakes! {
    NotifiesOnNothing, "notifies-on-nothing",
        "an empty packet without use_msg_size that meets a zero count completes a message";
    SlotEqualsCount, "slot-equals-count",
        "a slot number equal to the slot count is taken";
    PayloadBeforeBodyCheck, "payload-before-body-check",
        "the payload is stored before the body check";
    FillsBeforeNqrFull, "fills-before-nqr-full",
        "the head block is filled before NQR is found full";
    NewestBlock, "newest-block",
        "posting takes the newest NBQR block, not the oldest";
    TakeLeavesNext, "take-leaves-next",
        "take does not zero the block's next";
    AckChangesSlot, "ack-changes-slot",
        "an ack packet stores its offset in the slot";
    AckNotCounted, "ack-not-counted",
        "an ack packet does not count as taken";
    OffsetEqualsSize, "offset-equals-size",
        "an offset equal to the buffer size is refused";
    AqrWithoutTopBit, "aqr-without-top-bit",
        "an AQR entry lacks 2^31";
    AqrFullForgotten, "aqr-full-forgotten",
        "a full AQR does not stall";
    PostsBeforeAqrFull, "posts-before-aqr-full",
        "a completion posts its notice before AQR is found full";
    AckNeedsAqr, "ack-needs-aqr",
        "an ack packet stalls with AQR full";
    FaultNeedsAqr, "fault-needs-aqr",
        "a fault stalls with AQR full";
    StalledCounts, "stalled-counts",
        "a stalled fault counts as faulted";
    CountsSaturate, "counts-saturate",
        "the taken count stays at 2^32-1";
    Pcsr1SetsBits, "pcsr1-sets-bits",
        "a PCSR1 write sets interrupt bits too";
    PointerMovesOnRefusal, "pointer-moves-on-refusal",
        "a refused incrementing write moves the pointer";
    PageKeepsLowByte, "page-keeps-low-byte",
        "a page's low byte is or-ed to the pointer, not put in its place";
    GoForgetsOffset, "go-forgets-offset",
        "the go rule does not add the offset to the size";
    DioEndExcluded, "dio-end-excluded",
        "a direct_io message may not end at 0x1000";
    ControlPktSizeChecked, "control-pkt-size-checked",
        "the go rule looks at a control_pkt's size and address";
    GoRuleBeforeActive, "go-rule-before-active",
        "a bad go on an active descriptor answers bad-value";
    GoClearsStatus2, "go-clears-status2",
        "go clears the whole of status2";
    GoKeepsStalled, "go-keeps-stalled",
        "go clears done, but not stalled";
    ResetKeepsAqrLength, "reset-keeps-aqr-length",
        "reset keeps AQR's length";
    ResetNeedsSound, "reset-needs-sound",
        "a PCSR0 write with reset does not skip the test for soundness";
    InterruptWithoutBitTest, "interrupt-without-bit-test",
        "interrupt 2 is given with int_lo already set";
    StartsAtLastSender, "starts-at-last-sender",
        "the round starts at the last sender, not after it";
    FabricMovesLastSender, "fabric-moves-last-sender",
        "a packet the fabric did not take moves the last sender";
    UseBitsStay, "use-bits-stay",
        "use_msg_size and use_msg_offset stay after a packet";
    MetaDataStays, "meta-data-stays",
        "meta_data and meta_cnt stay after a packet";
    CompletionKeepsMetadata, "completion-keeps-metadata",
        "slot words 7 to 11 stay after a completed message";
    NoticeOfPacketOffset, "notice-of-packet-offset",
        "a message notice shows the packet's offset, not the slot's";
    NoticeOfUnflagged, "notice-of-unflagged",
        "a message notice shows metadata words without the flag in slot word 7";
    HeaderCheckSkipsMetadata, "header-check-skips-metadata",
        "receipt's header check leaves the metadata out";
    PaddingUnchecked, "padding-unchecked",
        "the zeros after the body check are not looked at";
    IncarnationBeforeValid, "incarnation-before-valid",
        "the incarnation is compared before the slot is found valid";
    RangeBeforePayload, "range-before-payload",
        "bytes_to_go is range-checked before the payload is subtracted too";
    ReserveUnchecked, "reserve-unchecked",
        "a slot with reserve bits is valid";
    MsgSizeUnchecked, "msg-size-unchecked",
        "a slot with word 4 at 2^24 or above is valid";
    MsgOffsetUnchecked, "msg-offset-unchecked",
        "a slot with word 5 at 2^24 or above is valid";
    MetaWordUnchecked, "meta-word-unchecked",
        "a slot with more than flag and length in word 7 is valid";
    NoPacketBeforeOff, "no-packet-before-off",
        "no-packet comes before off";
    QuietBeforeShort, "quiet-before-short",
        "quiet comes before short";
    FullBeforeBadValue, "full-before-bad-value",
        "a full NBQR answers full to a bad value";
    TakeFullBeforeEmpty, "take-full-before-empty",
        "take with 256 waiting answers full for an empty list";
    TakeFullBeforeBadNext, "take-full-before-bad-next",
        "take with 256 waiting answers full for a bad next";
    TakeNeedsEnable, "take-needs-enable",
        "take answers off with enable 0";
    HeadLeavesPlace, "head-leaves-place",
        "writing a head does not set the reader's place";
    SlotWord2KeepsRest, "slot-word-2-keeps-rest",
        "writing slot word 2 does not zero the other words";
    RemovalClearsWord, "removal-clears-word",
        "a removed queue entry's word becomes 0";
    LastRemovalRestarts, "last-removal-restarts",
        "removing a queue's last entry sets its place to 0";
    TokenWithEnqueueBit, "token-with-enqueue-bit",
        "the whole token word is pushed on NQR";
    WaitingUnchecked, "waiting-unchecked",
        "waiting blocks are not tested for soundness";
}

impl Wrong {
    pub fn named(name: &str) -> Option<Wrong> {
        Wrong::ALL
            .iter()
            .copied()
            .find(|wrong| wrong.name() == name)
    }
}

impl fmt::Display for Wrong {
    fn fmt(&self, out: &mut fmt::Formatter) -> fmt::Result {
        write!(out, "{:28} {}", self.name(), self.what())
    }
}
