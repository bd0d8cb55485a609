//! A carrier's contents, and the bits that the scope writes for them.

use crate::carrier::{Found, Spans, HEADER, SYNC_WORD};
use crate::written::Written;

/// The ten settings of a payload, in the scope's order.
#[derive(Clone, Copy, Debug, Default, Eq, PartialEq)]
pub struct Settings {
    pub sample_offset: Option<u64>,
    pub duration: Option<u64>,
    pub group_id: Option<u64>,
    pub codec: bool,
    pub discard: bool,
    pub aligned: Option<bool>,
    pub create: Option<bool>,
    pub remove: Option<bool>,
    pub priority: Option<u64>,
    pub processing: Option<u64>,
}

impl Settings {
    /// Those of the fewest bits: discard, and nothing else.
    pub const LEAST: Self = Self {
        sample_offset: None,
        duration: None,
        group_id: None,
        codec: false,
        discard: true,
        aligned: None,
        create: None,
        remove: None,
        priority: None,
        processing: None,
    };
}

#[derive(Clone, Debug, Eq, PartialEq)]
pub struct Payload {
    pub id: u64,
    pub settings: Settings,
    pub body: Vec<u8>,
}

#[derive(Clone, Debug, Eq, PartialEq)]
pub struct Contents {
    pub key_id: u64,
    pub payloads: Vec<Payload>,
    pub primary: Vec<u8>,
    pub secondary: Vec<u8>,
}

impl Contents {
    /// The same with zeros for the bytes of both protections.
    #[must_use]
    pub fn cleared(&self) -> Self {
        let mut cleared = self.clone();
        cleared.primary.fill(0);
        cleared.secondary.fill(0);
        cleared
    }

    /// The container's bits, and where each payload's parts stand.
    #[must_use]
    pub fn bits(&self) -> (Bits, Vec<Spans>) {
        let mut bits = Bits::default();
        bits.version(0);
        bits.key_id(u128::from(self.key_id));
        let payloads = self.payloads.iter();
        let spans = payloads.map(|payload| bits.payload(payload)).collect();
        bits.end_of_list();
        bits.protection(&self.primary, &self.secondary);
        (bits, spans)
    }

    /// The carrier, and what a reading has to find in it.
    ///
    /// # Panics
    ///
    /// Where the contents need more than the most that a declared length can say.
    #[must_use]
    pub fn written(&self) -> (Vec<u8>, Found) {
        let (bits, spans) = self.bits();
        let carrier = bits.carrier();
        let found = Found {
            consumed: carrier.len(),
            contents: self.clone(),
            spans,
        };
        (carrier, found)
    }
}

/// The bits of a container, as far as it is written. Numbers may be too large to be read.
#[derive(Clone, Default)]
pub struct Bits(pub Vec<bool>);

impl Bits {
    /// # Panics
    ///
    /// Where a declared length can't say the bytes that these bits fill.
    #[must_use]
    pub fn carrier(&self) -> Vec<u8> {
        let mut carrier = SYNC_WORD.to_be_bytes().to_vec();
        let declared = u16::try_from(self.length().div_ceil(8)).expect("a declared length");
        carrier.extend(declared.to_be_bytes());
        let octets = self.0.chunks(8);
        carrier.extend(octets.map(|octet| {
            let bits = octet.iter().zip((0..8).rev());
            bits.fold(0, |byte, (&bit, place)| byte | u8::from(bit) << place)
        }));
        carrier
    }

    #[must_use]
    pub fn length(&self) -> usize {
        self.0.len()
    }

    pub fn version(&mut self, version: u128) {
        self.extended(2, 2, version);
    }

    pub fn key_id(&mut self, key_id: u128) {
        self.extended(3, 3, key_id);
    }

    pub fn id(&mut self, id: u128) {
        self.extended(5, 5, id);
    }

    pub fn size(&mut self, size: u128) {
        self.field(8, size);
    }

    pub fn octets(&mut self, octets: &[u8]) {
        for &octet in octets {
            self.number(8, u128::from(octet));
        }
    }

    pub fn end_of_list(&mut self) {
        self.id(0);
    }

    /// # Panics
    ///
    /// On a length that has no code.
    pub fn protection(&mut self, primary: &[u8], secondary: &[u8]) {
        for protection in [primary, secondary] {
            let code = match protection.len() {
                0 => 0,
                1 => 1,
                4 => 2,
                16 => 3,
                length => panic!("no code for {length} bytes"),
            };
            self.number(2, code);
        }
        self.octets(primary);
        self.octets(secondary);
    }

    /// What is present is written; the settings rule is the caller's.
    pub fn settings(&mut self, settings: &Settings) {
        self.flag(settings.sample_offset.is_some());
        if let Some(offset) = settings.sample_offset {
            self.number(11, u128::from(offset));
            self.flag(false);
        }
        self.optional_field(11, settings.duration.map(u128::from));
        self.optional_field(2, settings.group_id.map(u128::from));
        self.flag(settings.codec);
        if settings.codec {
            self.number(8, 0);
        }
        self.flag(settings.discard);
        let bits = [settings.aligned, settings.create, settings.remove];
        for bit in bits.into_iter().flatten() {
            self.flag(bit);
        }
        let numbers = [(5, settings.priority), (2, settings.processing)];
        for (width, number) in numbers {
            if let Some(number) = number {
                self.number(width, u128::from(number));
            }
        }
    }

    /// A flag, and the field where it is set.
    pub fn optional_field(&mut self, width: u8, value: Option<u128>) {
        self.flag(value.is_some());
        if let Some(value) = value {
            self.field(width, value);
        }
    }

    pub fn flag(&mut self, flag: bool) {
        self.0.push(flag);
    }

    fn payload(&mut self, payload: &Payload) -> Spans {
        let id_start = self.position();
        self.id(u128::from(payload.id));
        let settings_start = self.position();
        self.settings(&payload.settings);
        let size_start = self.position();
        self.size(payload.body.len() as u128);
        let body_start = self.position();
        self.octets(&payload.body);
        Spans {
            id: id_start..settings_start,
            settings: settings_start..size_start,
            size: size_start..body_start,
            body: body_start..self.position(),
        }
    }

    /// All ones in the base is the escape, which the field's value is added to.
    fn extended(&mut self, base_width: u8, field_width: u8, value: u128) {
        let escape = (1 << base_width) - 1;
        self.number(base_width, value.min(escape));
        if value >= escape {
            self.field(field_width, value - escape);
        }
    }

    fn field(&mut self, width: u8, value: u128) {
        self.0.extend(Written::new(width, value).bits);
    }

    fn number(&mut self, width: u8, value: u128) {
        let places = (0..width).rev();
        self.0.extend(places.map(|place| value >> place & 1 == 1));
    }

    /// Counted from the carrier's first bit.
    fn position(&self) -> usize {
        8 * HEADER + self.length()
    }
}
