//! Words of JSON that are one of a few. A word that only a later library has is kept as it is.

use serde::Deserialize;
use std::fmt;

/// Defines enumerations of words.
macro_rules! words {
    ($($(#[$about:meta])* $name:ident { $($variant:ident = $word:literal, $meaning:literal;)* })*) => {$(
        $(#[$about])*
        #[derive(Debug, Clone, PartialEq, Eq, Hash, PartialOrd, Ord, Deserialize)]
        #[serde(from = "String")]
        #[non_exhaustive]
        pub enum $name {
            $(#[doc = $meaning] $variant,)*
            /// A word that only a later library has.
            Other(String),
        }

        impl $name {
            #[cfg(test)]
            pub(crate) const WORDS: &'static [&'static str] = &[$($word),*];

            /// The word in JSON.
            pub fn as_str(&self) -> &str {
                match self {
                    $(Self::$variant => $word,)*
                    Self::Other(word) => word,
                }
            }
        }

        impl From<String> for $name {
            fn from(word: String) -> Self {
                match word.as_str() {
                    $($word => Self::$variant,)*
                    _ => Self::Other(word),
                }
            }
        }

        impl fmt::Display for $name {
            fn fmt(&self, f: &mut fmt::Formatter<'_>) -> fmt::Result {
                f.write_str(self.as_str())
            }
        }
    )*};
}

words! {
    /// The hash algorithm of a bank of PCRs.
    Algorithm {
        Sha1 = "sha1", "SHA-1.";
        Sha256 = "sha256", "SHA-256.";
        Sha384 = "sha384", "SHA-384.";
        Sha512 = "sha512", "SHA-512.";
    }

    /// How the list's first entry compares with the PCRs after the log.
    BootAggregate {
        Good = "good", "It is the boot aggregate of these PCRs.";
        OldKernel = "old_kernel", "It is that of PCRs 0 to 7, as an older kernel makes it, and that is taken.";
        Wrong = "wrong", "It is a boot aggregate, of other values.";
        NoBank = "nobank", "It is one of a bank that the log lacks.";
        Missing = "missing", "The list is empty, or its first entry is something else.";
    }

    /// How a PCR compares with its expected value.
    State {
        Match = "match", "The PCR has its expected value.";
        Differ = "differ", "The PCR has another value.";
        Absent = "absent", "The log has no such bank.";
        Missing = "missing", "It is required, and not among the expected PCRs.";
    }

    /// What a report says at its end.
    Outcome {
        Match = "match", "All is well.";
        Differ = "differ", "Something is not.";
        SignatureNotChecked = "signature not checked", "There is no verdict, since nobody verified the quote's signature.";
    }

    /// How a quote's digest compares with that of the PCRs after log and list.
    QuoteState { Match = "match", "It is the same."; Differ = "differ", "It is another."; }

    /// What is known of a quote's signature.
    SignatureState {
        NotChecked = "not checked", "Nobody verified it.";
        Checked = "checked", "The caller states that it was verified.";
        Valid = "valid", "It is by the key that was given.";
    }

    /// Whether expected PCRs are those of a quote.
    ExpectedState { Confirmed = "confirmed", "They are."; Unconfirmed = "unconfirmed", "They are others."; }

    /// Where a PCR first has its expected value.
    Place {
        Reset = "reset", "Before the events.";
        Event = "event", "After an event of the log.";
        Entry = "entry", "After an entry of the list.";
        Nowhere = "nowhere", "At no point.";
        Absent = "absent", "The log has no such bank.";
        Missing = "missing", "It is required, and not among the expected PCRs.";
    }

    /// The type of a TPM's key.
    KeyType { Rsa = "rsa", "RSA."; Ecc = "ecc", "An elliptic curve."; }

    /// The scheme by which a TPM's key signs or decrypts.
    Scheme {
        None = "none", "Any that is asked for.";
        Rsassa = "rsassa", "RSASSA, which signs.";
        Rsapss = "rsapss", "RSAPSS, which signs.";
        Ecdsa = "ecdsa", "ECDSA, which signs.";
        Rsaes = "rsaes", "RSAES, which decrypts.";
        Oaep = "oaep", "OAEP, which decrypts.";
        Ecdh = "ecdh", "ECDH, which decrypts.";
    }

    /// The part of an event's data whose hash is the event's digest. If a PCR has the value that the log gives it, this part was hashed
    /// at the event's place in the PCR.
    Part {
        Data = "data", "All of it.";
        Value = "value", "The value of a variable, in PCR 1. Its name and its vendor are only claimed.";
        Command = "command", "The text of a command of GRUB, in PCR 8. Its kind is only claimed.";
        None = "none", "PCRs confirm no part.";
    }

    /// A word in place of what PCRs confirm.
    AnswerWord { Unknown = "unknown", "They confirm nothing of this."; All = "all", "All events are alike."; }

    /// Whether Secure Boot was on.
    SecureBoot { On = "on", "It was."; Off = "off", "It was not."; Unknown = "unknown", "Nothing confirms either."; }

    /// Whether a command asked Linux to measure files.
    PolicyState {
        Asked = "asked", "One did.";
        Possible = "possible", "None did, but one may set a policy.";
        Unknown = "unknown", "There is no such command.";
    }

    /// The kind of a command of GRUB, by what precedes its text.
    CommandKind {
        Grub = "grub", "It is a command.";
        Kernel = "kernel", "It is the command line of a kernel.";
        Module = "module", "It is that of a module, such as an initrd.";
    }

    /// What the digest of an entry's fields is of.
    DigestType { Ima = "ima", "The file."; Verity = "verity", "Its hash tree, by fs-verity."; }

    /// What is refused.
    Kind {
        Argument = "command_line", "An argument: a selection of PCRs, a nonce, or known files where they have no part. It has no number.";
        Log = "log", "The firmware event log.";
        List = "list", "The measurement list.";
        Replay = "replay", "The template digest of an entry is not valid.";
        Expected = "expected", "The text of expected PCRs, or what tpm2-tools printed.";
        Checkpoint = "checkpoint", "A session's state: it is damaged (1), of another version (2), or of another boot (3 by the log, 4 by a quote).";
        Quote = "quote", "The message of a quote: it is not one (1 to 10), has another nonce (11), or does not select a required PCR (12).";
        Key = "key", "The public area of a key: it is not one (1 to 10), or the key lacks what its purpose needs (11 to 22).";
        Known = "known", "A line of the known files has a digest by SHA-1 (1), or is no digest and name (2).";
        Signature = "signature", "The signature of a quote: it is not one (1 to 4), or not the key's (5 to 7), or the key is not taken (8, 9).";
        TextList = "text_list", "The text of a list, which is converted: a line is not that of a genuine entry.";
        LogForm = "log_form", "The log that is converted: it is in no form of a firmware event log.";
    }
}
