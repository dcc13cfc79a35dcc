//! The questions in words, as docs/QUESTIONS.md has them.

/// A question's text; none where no question has the number.
pub(crate) fn text(question: u8) -> Option<&'static str> {
    Some(match question {
        // MS/TP reading, then writing.
        1 => "at least 8 octets?",
        2 => "begins 55 FF?",
        3 => "type 0 to 7?",
        4 => "header check right?",
        5 => "total exactly as the length says?",
        6 => "data check right?",
        7 => "at most 501 data octets?",
        8 => "does the frame fit the lent output?",
        // BVLC headers, what a message carries, header writing.
        11 => "at least 4 octets?",
        12 => "begins 81?",
        13 => "function 00 to 0C?",
        14 => "length equals the octets given?",
        15 => "at least one NPDU octet?",
        16 => "four octets of output?",
        // Ethernet reading, validating, writing.
        21 => "at least 17 octets?",
        22 => "82 DC at octets 12 and 13?",
        23 => "82 82 03 at octets 14 to 16?",
        24 => "at most 1514 octets?",
        25 => "does the frame fit the lent output?",
        61 => "length field 3 to 1500?",
        62 => "at least that many octets behind octet 13?",
        // Statistics, patterns, finder.
        31 => "at most 65,535 octets?",
        32 => "do all entries fit the lent list?",
        33 => "place not beyond the end?",
        // The log.
        41 => "three octets left?",
        42 => "kind 1 to 3, in reading also 11 to 13?",
        43 => "payload length 1 to 1514?",
        44 => "do payload and time fit before the trailer?",
        46 => "does the record fit the buffer, with its time?",
        47 => "end within the log, used count within the buffer?",
        _ => return None,
    })
}
