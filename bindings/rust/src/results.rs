//! What lines of JSON have: a field for each member of `docs/schema.json`. Members that only a later library has are in `json` alone.

use crate::words::*;
use serde::de::DeserializeOwned;
use serde::Deserialize;
use std::fmt;
use std::ops::Deref;

/// Bytes, which JSON has as hexadecimal digits.
#[derive(Clone, Default, PartialEq, Eq, Hash, PartialOrd, Ord, Deserialize)]
#[serde(try_from = "String")]
pub struct Bytes(pub Vec<u8>);

impl TryFrom<String> for Bytes {
    type Error = &'static str;

    fn try_from(digits: String) -> Result<Self, Self::Error> {
        let digit = |byte: &u8| char::from(*byte).to_digit(16);
        let pairs = digits.as_bytes().chunks(2).map(|pair| u8::try_from(16 * digit(&pair[0])? + digit(pair.get(1)?)?).ok());
        pairs.collect::<Option<_>>().map(Self).ok_or("no hexadecimal digits of bytes")
    }
}

impl Deref for Bytes {
    type Target = [u8];

    fn deref(&self) -> &[u8] {
        &self.0
    }
}

impl fmt::Display for Bytes {
    fn fmt(&self, f: &mut fmt::Formatter<'_>) -> fmt::Result {
        self.0.iter().try_for_each(|byte| write!(f, "{byte:02x}"))
    }
}

impl fmt::Debug for Bytes {
    fn fmt(&self, f: &mut fmt::Formatter<'_>) -> fmt::Result {
        write!(f, "{self}")
    }
}

/// A line of JSON that a caller gets.
pub(crate) trait Line: DeserializeOwned {
    /// Keeps the line, and if it judges whether all is well.
    fn keep(&mut self, json: String, matches: bool);
}

/// What a line that judges says.
#[derive(Deserialize)]
pub(crate) struct Judgement {
    pub(crate) verdict: Option<Outcome>,
    pub(crate) located: Option<bool>,
}

/// Defines what lines have: a field for each member, with its name there if that is another, and with what it is. A line that a caller gets
/// has itself, too, and one with a verdict whether that is a match.
macro_rules! results {
    ($($(#[$about:meta])* $name:ident $($json:ident $($matches:ident)?)? {
        $($(#[$how:meta])* $field:ident $(as $member:literal)?: $of:ty, $meaning:literal;)*
    })*) => {$(
        $(#[$about])*
        #[derive(Debug, Clone, PartialEq, Eq, Deserialize)]
        #[non_exhaustive]
        pub struct $name {
            $(
                #[doc = "The line as the library gives it, without the line feed."] #[serde(skip)] pub $json: String,
                $(#[doc = "The library's verdict is a match (docs/verdict.md)."] #[serde(skip)] pub $matches: bool,)?
            )?
            $(#[doc = $meaning] $(#[serde(rename = $member)])? $(#[$how])* pub $field: $of,)*
        }

        $(impl Line for $name {
            fn keep(&mut self, json: String, _matches: bool) {
                self.$json = json;
                $(self.$matches = _matches;)?
            }
        })?

        #[cfg(test)]
        impl $name {
            pub(crate) const MEMBERS: &'static [&'static str] = &[$([$($member,)? stringify!($field)][0]),*];
        }
    )*};
}

results! {
    /// The verdict on a log, a list and expected PCRs. It covers no PCR without a row in `registers`.
    #[must_use]
    Verdict json matches {
        events: u64, "How many events the log has after its header.";
        locality: u8, "The startup locality that the log states, otherwise 0.";
        entries: u64, "How many entries the list has.";
        confirmed: Option<u64>, "Only from a [`Session`](crate::Session) with a prefix: the verdict covers only that many first entries.";
        unconfirmed: Option<Fault>, "The first error in the entries after the confirmed ones, if they have one.";
        compared: u64, "How many expected PCRs were compared.";
        boot_aggregate: BootAggregate, "How the list's first entry compares with the PCRs after the log.";
        registers: Vec<Row>, "A row for each expected PCR, in their order, and then one for each that is missing.";
        #[serde(default)] extends: Vec<Stray>, "The first event that extends PCR 10, and the first entry that extends another, if PCRs are required.";
        known_from: Option<u64>, "The first entry that was looked up among known files, if they are given: entries of a state are not.";
        #[serde(default)] unknown: Vec<u64>, "The numbers of the entries from that one on that are of no known file.";
        verdict: Outcome, "The verdict in words.";
    }

    /// The verdict on a list without a log, and expected PCRs. It covers no PCR without a row in `registers`.
    #[must_use]
    ListVerdict json matches {
        entries: u64, "How many entries the list has.";
        compared: u64, "How many expected PCRs were compared.";
        registers: Vec<Row>, "A row for each expected PCR, in their order, and then one for each that is missing.";
        #[serde(default)] extends: Vec<Stray>, "The first entry that extends another PCR than 10, if PCRs are required.";
        known_from: Option<u64>, "The first entry that was looked up among known files, if they are given: 0.";
        #[serde(default)] unknown: Vec<u64>, "The numbers of the entries from that one on that are of no known file.";
        verdict: Outcome, "The verdict in words.";
    }

    /// The verdict on a log and a list by a quote. It covers the PCRs in `quoted`.
    #[must_use]
    Attestation json matches {
        quoted: Vec<QuotedBank>, "The PCRs that the quote selects.";
        signer: Bytes, "The qualified name of the key that signed, as the quote states it.";
        clock: Clock, "The TPM's clock when it made the quote.";
        firmware: u64, "The version of the TPM's firmware.";
        events: u64, "How many events the log has after its header.";
        locality: u8, "The startup locality that the log states, otherwise 0.";
        entries: u64, "How many entries the list has.";
        confirmed: Option<u64>, "Only from a [`Session`](crate::Session) with a prefix, as for [`Verdict`].";
        unconfirmed: Option<Fault>, "The first error in the entries after the confirmed ones, if they have one.";
        boot_aggregate: BootAggregate, "How the list's first entry compares with the PCRs after the log.";
        expected: Option<ExpectedState>, "Whether expected PCRs are those of the quote, if any are given.";
        #[serde(default)] registers: Vec<Row>, "A row for each expected PCR that the quote selects, if they are those of the quote.";
        #[serde(default)] extends: Vec<Stray>, "The first event that extends PCR 10, and the first entry that extends another.";
        known_from: Option<u64>, "The first entry that was looked up among known files, as for [`Verdict`].";
        #[serde(default)] unknown: Vec<u64>, "The numbers of the entries from that one on that are of no known file.";
        quote: QuoteState, "Whether the quote is of the values to which log and list replay.";
        signature: SignatureState, "Whether its signature is by the key that was given, or what the caller said.";
        verdict: Outcome, "The verdict in words.";
    }

    /// Where each expected PCR first has its value.
    #[must_use]
    Places json {
        located: bool, "Each value was reached, there is one, and no required PCR is missing.";
        registers: Vec<PlaceRow>, "A row for each expected PCR, in their order, and then one for each that is missing.";
    }

    /// PCRs and their values.
    Registers json { registers: Vec<Register>, "The PCRs that differ from their reset values."; }

    /// What the public area of a key states. Whose TPM the key is in, it does not say.
    Key json {
        name: Bytes, "The name by which TPMs know the key (docs/formats.md). [`Attestation::signer`] is the key's qualified name, which is another.";
        key_type as "type": KeyType, "Whether it is of RSA or of an elliptic curve.";
        bits: u16, "The size of the modulus, or 256, 384 or 521 for the curves P-256, P-384 and P-521.";
        scheme: Scheme, "The scheme that is fixed in it.";
        hash: Option<Algorithm>, "The hash of the scheme, if it has one.";
        pem: String, "The public key as `openssl pkey -pubin` writes it, which [`attest`](crate::attest) takes.";
    }

    /// An entry of a measurement list; entries count from 0. If its payload has the fields of `ima`, `ima-ng` or `ima-sig`, as its template
    /// says, it has `algorithm`, `digest` and a path; any other has `payload`.
    Entry json {
        entry: u64, "The entry's number.";
        register: u8, "The PCR that it extends.";
        template: Option<String>, "The template's name, if it is UTF-8.";
        template_hex: Option<Bytes>, "Its bytes, if it is not.";
        template_digest: Bytes, "As the entry states it.";
        violation: bool, "The template digest is all zeros: the file's digest may be anything.";
        genuine: bool, "The template digest is valid, or the entry is a violation.";
        algorithm: Option<Algorithm>, "The algorithm of `digest`.";
        digest: Option<Bytes>, "The hash of the file's content.";
        path: Option<String>, "The file's path, if it is UTF-8.";
        path_hex: Option<Bytes>, "Its bytes, if it is not.";
        signature: Option<Bytes>, "The file's signature, which may be empty.";
        payload: Option<Bytes>, "Any other payload, whole.";
        fields: Option<Fields>, "What the fields of another of the kernel's templates say, if the payload is these.";
    }

    /// The header of a firmware event log.
    Header json { algorithms: Vec<DeclaredAlgorithm>, "The algorithms that it declares."; specification: Specification, "What else it says."; }

    /// An event of a firmware event log; events count from 1.
    Event json {
        event: u64, "The event's number.";
        register: u32, "The PCR that it names. An event of the type `EV_NO_ACTION` extends none, whatever digests it states, so no PCR confirms it.";
        register_name: Option<String>, "What systemd calls it.";
        event_type as "type": Option<String>, "The name of the type, if it has one.";
        type_number: u32, "The number of the type.";
        digests: Digests, "Those of the log's banks.";
        data: Bytes, "What the firmware says of the event. No PCR confirms it as such.";
        measured: Measured, "The part of the data whose hash is the digest, by banks. All else, and the type, is only claimed.";
        confirmed: Option<Part>, "The part of the data that PCRs confirm, by [`confirmed_events`](crate::confirmed_events).";
        content: Content, "What the data says, by the type.";
    }

    /// A program that the firmware started, or may have.
    Image {
        image: Answer<u64>, "The event's number.";
        digests: Option<Digests>, "A digest for each bank that answers.";
        claimed: Option<Content>, "What the event's data claims.";
    }

    /// A text that a boot loader measured, such as a command line of the kernel.
    Command {
        command: Answer<u64>, "The event's number. A word: texts of the PCR from `event` on are not reported, and without `event` none is.";
        register: u8, "The PCR, 8 or 12.";
        register_name: Option<String>, "What systemd calls it.";
        text: Option<String>, "The text.";
        text_hex: Option<Bytes>, "Its bytes, if it is not valid in its encoding.";
        claimed: Option<CommandData>, "What the data claims of the text, if a command of GRUB was measured: its kind.";
        event: Option<u64>, "The first event that is not reported.";
    }

    /// Whether a command asked Linux to measure files.
    ImaPolicy { ima_policy: PolicyState, "Whether one did."; event: Option<u64>, "The first event whose text did."; }

    /// A variable that says what the firmware boots, `BootOrder` or a `Boot####`.
    BootVariable { boot_variable: Answer<u64>, "The event's number."; content: Option<Content>, "What its data says."; }

    /// What an event claims, which nothing confirms: of the members after `event` those of one kind.
    Claim {
        event: u64, "The event's number.";
        secure_boot: Option<SecureBoot>, "Whether Secure Boot was on.";
        firmware_version: Option<Content>, "The firmware's version.";
        digests: Option<Digests>, "The digests of an image.";
        image: Option<Content>, "The image.";
        register: Option<u8>, "The PCR of a command.";
        register_name: Option<String>, "What systemd calls it.";
        command: Option<Content>, "A text that a boot loader measured.";
        boot_variable: Option<Content>, "A variable that says what the firmware boots.";
    }

    /// How two logs extend a PCR.
    Alike {
        register: u8, "The PCR.";
        register_name: Option<String>, "What systemd calls it.";
        bank: Option<Algorithm>, "The first bank in which the logs differ.";
        alike: Answer<u64>, "How many first events have the same digests in that bank, or that all have in each bank that answers.";
    }

    /// An event that one of two logs has.
    Changed {
        register: u8, "The PCR.";
        register_name: Option<String>, "What systemd calls it.";
        now: Option<u64>, "The event's number in the log.";
        before: Option<u64>, "Its number in the earlier log, if it is of that one.";
        digest: Option<Bytes>, "Its digest in the bank in which the logs differ, if it has one.";
        claimed: Content, "What its data claims.";
    }

    /// The digests of an event.
    Digests {
        sha1: Option<Bytes>, "By SHA-1.";
        sha256: Option<Bytes>, "By SHA-256.";
        sha384: Option<Bytes>, "By SHA-384.";
        sha512: Option<Bytes>, "By SHA-512.";
    }

    /// What of an event's data was measured.
    Measured {
        sha1: Option<Part>, "In the SHA-1 bank.";
        sha256: Option<Part>, "In the SHA-256 bank.";
        sha384: Option<Part>, "In the SHA-384 bank.";
        sha512: Option<Part>, "In the SHA-512 bank.";
    }

    /// An expected PCR, compared, or a required one that is missing.
    Row {
        bank: Algorithm, "The algorithm of the PCR's bank.";
        register: u8, "The PCR's number, from 0 to 23.";
        expected: Option<Bytes>, "The expected value; none if the state is [`State::Missing`].";
        state: State, "How it compares.";
        value: Option<Bytes>, "The value that the PCR has, if the state is [`State::Differ`].";
    }

    /// Where an expected PCR first has its value, or that a required one is missing.
    PlaceRow {
        bank: Algorithm, "The algorithm of the PCR's bank.";
        register: u8, "The PCR's number, from 0 to 23.";
        expected: Option<Bytes>, "The expected value; none if the place is [`Place::Missing`].";
        place: Place, "Where it has its value.";
        number: Option<u64>, "The number of the event, from 1, or of the entry, from 0.";
    }

    /// A PCR and its value.
    Register {
        bank: Algorithm, "The algorithm of the PCR's bank.";
        register: u8, "The PCR's number, from 0 to 23.";
        value: Bytes, "As many bytes as a digest of the algorithm.";
    }

    /// An event of the log that extends PCR 10, or an entry of the list that extends another.
    #[derive(Copy)]
    Stray {
        event: Option<u64>, "The event's number, if it is one.";
        entry: Option<u64>, "The entry's number, if it is one.";
        register: u8, "The PCR that it extends.";
    }

    /// An error in a list after its confirmed part, for which the list is not refused.
    Fault {
        kind: Kind, "[`Kind::List`] or [`Kind::Replay`].";
        number: Option<u64>, "The number of the error among those of its kind.";
        event: Option<u64>, "The number of the event where it is.";
        entry: Option<u64>, "The number of the entry where it is.";
        message: String, "Such as `unconfirmed: replay fault 1 at entry 98`.";
    }

    /// The PCRs that a quote selects of a bank.
    QuotedBank { bank: Algorithm, "The bank's algorithm."; registers: Vec<u8>, "The numbers of the PCRs."; }

    /// A TPM's clock and its counts when it made a quote. For a key outside the endorsement and platform hierarchies the TPM adds a constant to
    /// `resets`, `restarts` and the version of its firmware: only differences between two quotes by one key mean something.
    #[derive(Copy)]
    Clock {
        milliseconds: u64, "For how many milliseconds the TPM has had power since it was last cleared.";
        resets: u32, "How often it was reset since it was last cleared: each boot is one reset.";
        restarts: u32, "How often it was restarted or resumed since its last reset.";
        safe: bool, "Whether the clock never had a later value.";
    }

    /// An algorithm of a log's header.
    DeclaredAlgorithm {
        name: Option<Algorithm>, "The name, if the library knows the algorithm.";
        id: u16, "Its number in TCG's registry.";
        size: u16, "The size of its digests in bytes.";
    }

    /// The specification that a log's header names (docs/formats.md).
    Specification {
        platform_class: u32, "The platform class.";
        major: u8, "The major version of the Firmware Profile.";
        minor: u8, "Its minor version.";
        errata: u8, "Its errata.";
        uintn_size: u8, "The size of a UINTN.";
        vendor: Bytes, "The vendor's bytes.";
    }

    /// What an event's data says: one member, by the form of the data (docs/event-data.md).
    Content {
        separator: Option<u32>, "The number of a separator.";
        text: Option<String>, "A text.";
        text_hex: Option<Bytes>, "Its bytes, if it is not valid in its encoding.";
        guid: Option<String>, "A GUID.";
        locality: Option<u8>, "The startup locality.";
        technology: Option<u8>, "How a host keeps its guests apart.";
        command: Option<CommandData>, "A command of GRUB.";
        variable: Option<Variable>, "A variable of UEFI.";
        image: Option<ImageData>, "An image that was loaded.";
        gpt: Option<Gpt>, "A partition table.";
        blob: Option<Blob>, "A part of the firmware in memory.";
        tagged: Option<Tagged>, "A tagged event.";
        handoff: Option<Handoff>, "Vendor tables that firmware hands over.";
        #[serde(default)] unknown: bool, "The data has no form of the event's type that the library knows.";
    }

    /// A command of GRUB.
    CommandData {
        kind: CommandKind, "Its kind, which is only claimed.";
        text: Option<String>, "The text that was measured.";
        text_hex: Option<Bytes>, "Its bytes, if it is not valid in its encoding.";
    }

    /// A variable of UEFI. Of the fields from `flag` on one is there, by vendor and name, or none.
    Variable {
        guid: String, "The vendor.";
        name: Option<String>, "The name.";
        name_hex: Option<Bytes>, "Its bytes, if it is not valid in its encoding.";
        value: Bytes, "The value.";
        rest: Option<Bytes>, "The bytes behind the variable.";
        flag: Option<u8>, "What the value says: a byte.";
        order: Option<Vec<String>>, "The numbers of load options, in the order in which they are tried: the four digits of a `Boot####`.";
        option: Option<LoadOption>, "A load option.";
        certificate: Option<Certificate>, "A certificate, without an owner, which the value is.";
        signature: Option<UefiSignature>, "A signature, a key or a hash.";
        level: Option<String>, "The levels of SBAT.";
        lists: Option<Vec<UefiSignatureList>>, "Lists of signatures, of keys or of hashes.";
    }

    /// An image that was loaded.
    ImageData {
        location: String, "Where it is in memory, as `0x` and hexadecimal digits.";
        size: String, "Its size there, likewise.";
        link_address: String, "The address that it was linked for, likewise.";
        path: Option<String>, "Its device path.";
        path_hex: Option<Bytes>, "Its bytes, if it is not whole nodes.";
        rest: Option<Bytes>, "The bytes behind the image's form.";
    }

    /// A partition table.
    Gpt { disk: String, "The disk's GUID."; partitions: Vec<Partition>, "Its partitions."; }

    /// A partition.
    Partition {
        partition_type as "type": String, "The GUID of its type.";
        guid: String, "Its GUID.";
        first: String, "Its first block, as `0x` and hexadecimal digits.";
        last: String, "Its last block, likewise.";
        attributes: String, "Its attributes, likewise.";
        name: Option<String>, "Its name.";
        name_hex: Option<Bytes>, "Its bytes, if it is not valid in its encoding.";
    }

    /// A part of the firmware in memory.
    Blob {
        description: Option<String>, "What it is, if that is said.";
        description_hex: Option<Bytes>, "Its bytes, if it is not valid in its encoding.";
        base: String, "Where it is in memory, as `0x` and hexadecimal digits.";
        length: String, "How many bytes it has, likewise.";
    }

    /// A tagged event.
    Tagged { id: u32, "The tag."; text: Option<String>, "The data, if it is text."; data: Option<Bytes>, "The data, if it is not."; }

    /// Vendor tables that firmware hands over.
    Handoff {
        description: Option<String>, "What they are, if that is said.";
        description_hex: Option<Bytes>, "Its bytes, if it is not valid in its encoding.";
        tables: Vec<VendorTable>, "The tables.";
    }

    /// A vendor table.
    VendorTable {
        guid: String, "Which table it is.";
        name: Option<String>, "What Linux or EDK2 calls the GUID, if it is a known one.";
        address: String, "Where it is in memory, as `0x` and hexadecimal digits.";
    }

    /// A load option.
    LoadOption {
        attributes: u32, "Its attributes.";
        description: Option<String>, "Its description.";
        description_hex: Option<Bytes>, "Its bytes, if it is not valid in its encoding.";
        path: Option<String>, "Its device path.";
        path_hex: Option<Bytes>, "Its bytes, if it is not whole nodes.";
        data: Bytes, "Its optional data.";
    }

    /// A signature of UEFI.
    UefiSignature {
        owner: String, "The GUID of its owner.";
        data: Bytes, "The certificate, or the hash.";
        certificate: Option<Certificate>, "The certificate, if it is one.";
    }

    /// A certificate, by its bytes alone.
    Certificate { sha256: Bytes, "Its fingerprint: their SHA-256."; size: u64, "How many they are."; }

    /// A list of signatures.
    UefiSignatureList {
        list_type as "type": String, "The GUID of the signatures' type.";
        count: u32, "How many there are.";
        owners: Vec<String>, "The owner of each signature whose owner differs from that of the signature before it.";
        certificates: Option<Vec<Certificate>>, "The certificates that they are.";
    }

    /// What the fields of `ima-ngv2`, `ima-sigv2`, `ima-buf`, `ima-modsig` and `evm-sig` say (docs/formats.md). A template has only some of
    /// them, and some are absent if they are empty.
    Fields {
        digest_type: Option<DigestType>, "What the digest is of.";
        algorithm: Algorithm, "The algorithm of `digest`.";
        digest: Bytes, "The file's digest.";
        path: Option<String>, "The file's path, if it is UTF-8.";
        path_hex: Option<Bytes>, "Its bytes, if it is not.";
        signature: Option<Bytes>, "The file's signature.";
        modsig_algorithm: Option<Algorithm>, "The algorithm of `modsig_digest`.";
        modsig_digest: Option<Bytes>, "The digest of the file without the appended signature.";
        modsig: Option<Bytes>, "The appended signature.";
        buffer: Option<Bytes>, "The bytes that were measured.";
        evm_signature: Option<Bytes>, "The portable signature of EVM.";
        xattr_names: Option<String>, "The names of the extended attributes, if they are UTF-8.";
        xattr_names_hex: Option<Bytes>, "Their bytes, if they are not.";
        xattr_lengths: Option<Vec<u32>>, "The lengths of their values.";
        xattr_values: Option<Bytes>, "Their values.";
        uid: Option<u32>, "The file's owner.";
        gid: Option<u32>, "Its group.";
        mode: Option<u16>, "Its mode.";
    }
}

/// What PCRs confirm, or a word in its place.
#[derive(Debug, Clone, PartialEq, Eq, Deserialize)]
#[serde(untagged)]
#[non_exhaustive]
pub enum Answer<T> {
    /// What they confirm.
    Given(T),
    /// In place of it.
    Word(AnswerWord),
}

impl<T> Answer<T> {
    /// What they confirm, if they do.
    pub fn given(&self) -> Option<&T> {
        match self {
            Self::Given(value) => Some(value),
            Self::Word(_) => None,
        }
    }
}

impl Entry {
    /// The bytes of the file's path, if the entry is of a file.
    pub fn path_bytes(&self) -> Option<&[u8]> {
        either(self.path.as_deref(), self.path_hex.as_deref())
    }

    /// The bytes of the template's name.
    pub fn template_bytes(&self) -> &[u8] {
        either(self.template.as_deref(), self.template_hex.as_deref()).unwrap_or_default()
    }
}

fn either<'a>(text: Option<&'a str>, bytes: Option<&'a [u8]>) -> Option<&'a [u8]> {
    text.map(str::as_bytes).or(bytes)
}

/// The line after the last entry of a whole list.
#[derive(Deserialize)]
pub(crate) struct End {
    pub(crate) entries: u64,
}

/// The line of an error.
#[derive(Deserialize)]
pub(crate) struct Refusal {
    pub(crate) fault: Fault,
}
