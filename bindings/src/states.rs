//! What has a code in the stored words: types and states.

use std::fmt::{self, Display, Formatter};

/// An enum by the paper's numbers, displayed by the paper's names.
macro_rules! coded {
    ($(#[$about:meta])* $name:ident { $($(#[$case_about:meta])* $case:ident = $number:literal $text:literal,)+ }) => {
        $(#[$about])*
        #[non_exhaustive]
        #[derive(Clone, Copy, Debug, Default, PartialEq, Eq, Hash)]
        pub enum $name {
            $($(#[$case_about])* $case = $number,)+
        }

        impl $name {
            /// The paper's number for this.
            pub fn number(self) -> u64 {
                self as u64
            }

            /// What has this number, if anything has.
            pub fn of_number(number: u64) -> Option<$name> {
                match number {
                    $($number => Some($name::$case),)+
                    _ => None,
                }
            }
        }

        impl Display for $name {
            fn fmt(&self, f: &mut Formatter<'_>) -> fmt::Result {
                f.pad(match self {
                    $($name::$case => $text,)+
                })
            }
        }
    };
}

coded! {
    /// What a frame is.
    ///
    /// ```
    /// use reefnettle::FrameType;
    ///
    /// assert_eq!(FrameType::Tdcx.to_string(), "TDCX");
    /// assert_eq!(FrameType::of_number(2), Some(FrameType::Tdcx));
    /// ```
    FrameType {
        /// Type 0: free.
        #[default]
        Nda = 0 "NDA",
        /// Type 1: root page of a domain.
        Tdr = 1 "TDR",
        /// Type 2: control page of a domain.
        Tdcx = 2 "TDCX",
        /// Type 3: Secure EPT table.
        Ept = 3 "EPT",
        /// Type 4: page of a guest's memory.
        Reg = 4 "REG",
    }
}

coded! {
    /// What an entry of a Secure EPT table says of its frame.
    EntryState {
        /// State 0: it names no frame.
        #[default]
        Free = 0 "FREE",
        /// State 1: it leads to a table.
        NlMapped = 1 "NL_MAPPED",
        /// State 2: it maps a page.
        Mapped = 2 "MAPPED",
        /// State 3: it maps a page that the guest hasn't accepted yet.
        Pending = 3 "PENDING",
        /// State 4: NL_MAPPED, blocked.
        NlBlocked = 4 "NL_BLOCKED",
        /// State 5: MAPPED, blocked.
        Blocked = 5 "BLOCKED",
        /// State 6: PENDING, blocked.
        PendingBlocked = 6 "PENDING_BLOCKED",
    }
}

coded! {
    /// How far a domain has come with its key.
    Lifecycle {
        /// Lifecycle 0: it has a key.
        #[default]
        HkidAssigned = 0 "HKID assigned",
        /// Lifecycle 1: its key is configured.
        KeysConfigured = 1 "keys configured",
        /// Lifecycle 2: blocked for good, it still has its key.
        Blocked = 2 "blocked",
        /// Lifecycle 3: its key is free, and its frames can be reclaimed.
        Teardown = 3 "teardown",
        /// Lifecycle 4: blocked and written back, it still has its key. On its
        /// way a domain has it between 2 and 3.
        WrittenBack = 4 "written back",
    }
}

coded! {
    /// How far a domain has come on its way to run.
    OpState {
        /// Op state 0.
        #[default]
        Uninitialized = 0 "uninitialized",
        /// Op state 1.
        Initialized = 1 "initialized",
        /// Op state 2.
        Runnable = 2 "runnable",
    }
}
