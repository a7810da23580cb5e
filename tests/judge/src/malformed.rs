//! When a stream is malformed: the rule said once more, plainly, record by record.

/// What is wrong with the first bad record, or with the length.
#[derive(Debug, Clone, Copy, PartialEq, Eq, Hash)]
pub enum Reason {
    LengthZero,
    LengthNotMultipleOfFour,
    TooManyTokens,
    KindUnknown,
    EndBeforeLast,
    EndMissing,
    PayloadOnPlainKind,
    IdTooLarge,
    LineTooLarge,
    AfterLineTooLarge,
    EndPayload,
    EndLinesUnequal,
}

impl Reason {
    pub const ALL: [Reason; 12] = [
        Reason::LengthZero,
        Reason::LengthNotMultipleOfFour,
        Reason::TooManyTokens,
        Reason::KindUnknown,
        Reason::EndBeforeLast,
        Reason::EndMissing,
        Reason::PayloadOnPlainKind,
        Reason::IdTooLarge,
        Reason::LineTooLarge,
        Reason::AfterLineTooLarge,
        Reason::EndPayload,
        Reason::EndLinesUnequal,
    ];
}

/// The index told by refusal 6 and the reason for it, or nothing for a well-formed stream.
pub fn first_fault(stream: &[u64]) -> Option<(u64, Reason)> {
    if stream.is_empty() {
        return Some((0, Reason::LengthZero));
    }
    if stream.len() % 4 != 0 {
        return Some((0, Reason::LengthNotMultipleOfFour));
    }
    let records = stream.len() / 4;
    if records - 1 > 1_048_576 {
        return Some((0, Reason::TooManyTokens));
    }
    for index in 0..records {
        let is_last = index == records - 1;
        if let Some(reason) = fault(&stream[index * 4..index * 4 + 4], is_last) {
            return Some((index as u64, reason));
        }
    }
    None
}

fn fault(record: &[u64], is_last: bool) -> Option<Reason> {
    let [kind, payload, line, after_line] = *record else {
        unreachable!("records have four words")
    };
    if kind > 59 {
        return Some(Reason::KindUnknown);
    }
    if kind == 59 && !is_last {
        return Some(Reason::EndBeforeLast);
    }
    if kind != 59 && is_last {
        return Some(Reason::EndMissing);
    }
    if line > 4_294_967_295 {
        return Some(Reason::LineTooLarge);
    }
    if after_line > 4_294_967_295 {
        return Some(Reason::AfterLineTooLarge);
    }
    match kind {
        59 if payload != 0 => Some(Reason::EndPayload),
        59 if line != after_line => Some(Reason::EndLinesUnequal),
        0..=54 if payload != 0 => Some(Reason::PayloadOnPlainKind),
        57 | 58 if payload > 4_294_967_295 => Some(Reason::IdTooLarge),
        _ => None,
    }
}
