//! What a machine booted, by the lines of `ima-agent boot`.

use crate::results::{Alike, Answer, BootVariable, Changed, Claim, Command, Content, ImaPolicy, Image};
use crate::words::{AnswerWord, PolicyState, SecureBoot};
use serde::Deserialize;
use serde_json::Value;

/// What a machine booted, as far as PCRs confirm it (docs/event-data.md, 'What a machine booted').
#[derive(Debug, Clone, PartialEq, Eq)]
#[non_exhaustive]
#[must_use]
pub struct Boot {
    /// The evidence is a quote whose verdict is no match, so nothing is confirmed.
    pub quote_differs: bool,
    /// The library's lines, a line feed after each. Those of kinds that only a later library has are here alone.
    pub json: String,
    /// Whether Secure Boot was on.
    pub secure_boot: SecureBoot,
    /// What states the firmware's version.
    pub firmware_version: Answer<Content>,
    /// The programs that the firmware started, or may have.
    pub images: Vec<Image>,
    /// The texts that boot loaders measured.
    pub commands: Vec<Command>,
    /// Whether a command asked Linux to measure files.
    pub ima_policy: ImaPolicy,
    /// The variables that say what the firmware boots.
    pub boot_variables: Vec<BootVariable>,
    /// Only without evidence: what events claim.
    pub claimed: Vec<Claim>,
    /// Only with the log of an earlier boot: how the logs extend each PCR.
    pub alike: Vec<Alike>,
    /// Only with the log of an earlier boot: the events that differ.
    pub changed: Vec<Changed>,
}

/// A member for each kind of line, which no kind before it has.
const KINDS: [&str; 10] = ["secure_boot", "firmware_version", "image", "command", "ima_policy", "boot_variable", "alike", "now", "before", "claimed"];

impl Boot {
    /// What lines say, or none if a line is damaged, or one that each boot has is missing.
    pub(crate) fn read(text: &[u8], quote_differs: bool) -> Option<Self> {
        let json = std::str::from_utf8(text).ok().filter(|text| text.ends_with('\n'))?.to_owned();
        let (mut secure_boot, mut firmware_version, mut ima_policy) = (None, None, None);
        let (mut images, mut commands, mut boot_variables) = (Vec::new(), Vec::new(), Vec::new());
        let (mut claimed, mut alike, mut changed) = (Vec::new(), Vec::new(), Vec::new());
        let mut is_claimed = false;
        for line in json.lines() {
            let line: Value = serde_json::from_str(line).ok().filter(Value::is_object)?;
            match KINDS.into_iter().find(|kind| line.get(kind).is_some()) {
                Some("secure_boot") => secure_boot = Some(of(&line["secure_boot"])?),
                Some("firmware_version") => firmware_version = Some(of(&line["firmware_version"])?),
                Some("image") => images.push(of(&line)?),
                Some("command") => commands.push(of(&line)?),
                Some("ima_policy") => ima_policy = Some(of(&line)?),
                Some("boot_variable") => boot_variables.push(of(&line)?),
                Some("alike") => alike.push(of(&line)?),
                Some("claimed") if line["claimed"] == "all" => is_claimed = true,
                Some("claimed") => claimed.push(of(&line["claimed"])?),
                Some(_) => changed.push(of(&line)?),
                None => {}
            }
        }
        if is_claimed {
            secure_boot = secure_boot.or(Some(SecureBoot::Unknown));
            firmware_version = firmware_version.or(Some(Answer::Word(AnswerWord::Unknown)));
            ima_policy = ima_policy.or(Some(ImaPolicy { ima_policy: PolicyState::Unknown, event: None }));
        }
        let (secure_boot, firmware_version, ima_policy) = (secure_boot?, firmware_version?, ima_policy?);
        Some(Self { quote_differs, json, secure_boot, firmware_version, images, commands, ima_policy, boot_variables, claimed, alike, changed })
    }
}

fn of<'a, T: Deserialize<'a>>(value: &'a Value) -> Option<T> {
    T::deserialize(value).ok()
}
