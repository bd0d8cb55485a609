//! The original's verdicts on its own container, told in the library's figures.

use crate::carrier::{Reply, NOT_ONE_OF_EACH, PROFILE_NOT_MET};
use openjoc_emdf::{
    validate_joc_profile, validate_joc_profile_for, EmdfContainer, EmdfError, EmdfPayload,
    JocProfileDeviation, JocProfileField, JocProfileValidationFailure, JocProfileValue,
    JocValidationProfile, JocValidationStatus, ValidatedJocProfile, JOC_PAYLOAD_ID,
    OAMD_PAYLOAD_ID,
};

/// Both profiles' verdicts on a carrier.
pub struct Verdicts {
    pub strict: Reply,
    pub compat: Reply,
}

impl Verdicts {
    /// # Panics
    ///
    /// Where the original's two strict verdicts disagree.
    #[must_use]
    pub fn new(container: &EmdfContainer) -> Self {
        let strict = verdict(container, JocValidationProfile::EtsiStrict);
        assert_wrapped(container, &strict);
        Self {
            strict,
            compat: verdict(container, JocValidationProfile::ObservedVendorCompat),
        }
    }

    /// A carrier that is refused has no other verdict.
    #[must_use]
    pub fn refused(refusal: Reply) -> Self {
        Self {
            strict: refusal,
            compat: refusal,
        }
    }
}

fn verdict(container: &EmdfContainer, profile: JocValidationProfile) -> Reply {
    match validate_joc_profile_for(container, profile) {
        Ok(validated) => accepted(container, &validated),
        Err(failure) => refused(&failure),
    }
}

fn accepted(container: &EmdfContainer, validated: &ValidatedJocProfile<'_>) -> Reply {
    let [oamd, joc] = [validated.oamd, validated.joc].map(|payload| place(container, payload));
    let deviates = validated.status == JocValidationStatus::AcceptedWithDeviation;
    let marks = word(&validated.deviations);
    Reply::accepted(&[oamd, joc, u64::from(marks), u64::from(deviates)])
}

fn refused(failure: &JocProfileValidationFailure) -> Reply {
    let counts = [failure.oamd_payload_count, failure.joc_payload_count];
    if counts != [1, 1] {
        return Reply::new(NOT_ONE_OF_EACH, &counts.map(|count| count as u64));
    }
    let marks = word(&failure.deviations);
    let number = failure.deviations.len() as u64;
    Reply::new(PROFILE_NOT_MET, &[u64::from(marks), number])
}

fn place(container: &EmdfContainer, payload: &EmdfPayload) -> u64 {
    let mut payloads = container.payloads.iter();
    let place = payloads.position(|other| std::ptr::eq(other, payload));
    place.expect("a payload of this container") as u64
}

/// The word of marks; its ones are as many as the deviations, and in their order.
fn word(deviations: &[JocProfileDeviation]) -> u32 {
    deviations.iter().fold(0, |word, deviation| {
        let mark = 1 << mark(deviation);
        assert!(word < mark, "deviations not in the scope's order: {deviations:?}");
        word | mark
    })
}

/// Which mark a deviation is, the first being 0.
fn mark(deviation: &JocProfileDeviation) -> u32 {
    let first = match deviation.payload_id {
        OAMD_PAYLOAD_ID => 0,
        JOC_PAYLOAD_ID => 10,
        id => unreachable!("a deviation of id {id}"),
    };
    // Only where both are compared, what is wanted is the other's.
    let is_missing = deviation.expected_by_etsi == JocProfileValue::Present;
    let field = match deviation.field {
        JocProfileField::SampleOffset => 0,
        JocProfileField::Duration => 1,
        JocProfileField::GroupId if is_missing => 2,
        JocProfileField::GroupId => 10,
        JocProfileField::CodecDataPresent => 3,
        JocProfileField::DiscardUnknownPayload => 4,
        JocProfileField::PayloadFrameAligned => 5,
        JocProfileField::CreateDuplicate => 6,
        JocProfileField::RemoveDuplicate => 7,
        JocProfileField::Priority => 8,
        JocProfileField::ProcessingAllowed => 9,
    };
    first + field
}

/// The call that wraps the strict one says the same, as far as it says it.
fn assert_wrapped(container: &EmdfContainer, strict: &Reply) {
    let [first, second, ..] = strict.words;
    let agrees = match validate_joc_profile(container) {
        Ok(pair) => {
            let body = |place: u64| &container.payloads[place as usize].data[..];
            let bodies = [body(first), body(second)];
            *strict == Reply::accepted(&[first, second]) && [pair.oamd, pair.joc] == bodies
        }
        Err(EmdfError::JocProfilePayloadCount { oamd, joc }) => {
            let counts = [oamd, joc].map(|count| count as u64);
            *strict == Reply::new(NOT_ONE_OF_EACH, &counts)
        }
        Err(EmdfError::JocProfileConfiguration) => strict.number == PROFILE_NOT_MET,
        Err(error) => unreachable!("not a verdict: {error}"),
    };
    assert!(agrees, "the original disagrees with itself: {strict:?}");
}
