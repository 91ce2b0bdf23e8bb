//! UTF-8 at the boundaries of the Unicode Standard's Table 3-7, whole and damaged.

/// Table 3-7: for each row the first and the last byte allowed at each place.
pub const TABLE_3_7: [&[(u8, u8)]; 9] = [
    &[(0x00, 0x7F)],
    &[(0xC2, 0xDF), (0x80, 0xBF)],
    &[(0xE0, 0xE0), (0xA0, 0xBF), (0x80, 0xBF)],
    &[(0xE1, 0xEC), (0x80, 0xBF), (0x80, 0xBF)],
    &[(0xED, 0xED), (0x80, 0x9F), (0x80, 0xBF)],
    &[(0xEE, 0xEF), (0x80, 0xBF), (0x80, 0xBF)],
    &[(0xF0, 0xF0), (0x90, 0xBF), (0x80, 0xBF), (0x80, 0xBF)],
    &[(0xF1, 0xF3), (0x80, 0xBF), (0x80, 0xBF), (0x80, 0xBF)],
    &[(0xF4, 0xF4), (0x80, 0x8F), (0x80, 0xBF), (0x80, 0xBF)],
];

/// "for UTF-8 the Unicode Standard, Table 3-7, decides": the length of the scalar that begins here.
fn scalar_length(bytes: &[u8]) -> Option<usize> {
    let within = |row: &&&[(u8, u8)]| {
        row.len() <= bytes.len()
            && row
                .iter()
                .zip(bytes)
                .all(|((first, last), byte)| first <= byte && byte <= last)
    };
    TABLE_3_7.iter().find(within).map(|row| row.len())
}

/// "length of the longest well-formed prefix", by the table alone.
pub fn well_formed_prefix(bytes: &[u8]) -> usize {
    let mut length = 0;
    while let Some(scalar) = scalar_length(&bytes[length..]) {
        length += scalar;
    }
    length
}

/// A row's scalar with one byte at a boundary of its range.
fn at_boundaries(row: &[(u8, u8)]) -> Vec<Vec<u8>> {
    let mut scalars = Vec::new();
    let low: Vec<u8> = row.iter().map(|(first, _)| *first).collect();
    let high: Vec<u8> = row.iter().map(|(_, last)| *last).collect();
    for (place, (first, last)) in row.iter().enumerate() {
        let bytes = [first.wrapping_sub(1), *first, *last, last.wrapping_add(1)];
        for (base, byte) in [&low, &high]
            .into_iter()
            .flat_map(|base| bytes.map(|b| (base, b)))
        {
            let mut scalar = base.clone();
            scalar[place] = byte;
            scalars.push(scalar);
        }
    }
    let cut_short = (1..row.len()).map(|length| low[..length].to_vec());
    scalars.extend(cut_short);
    scalars
}

/// Each boundary alone and within ASCII of several kinds.
pub fn damaged() -> Vec<Vec<u8>> {
    let around: [(&[u8], &[u8]); 4] = [(b"", b""), (b"#", b"z\n"), (b"\"", b"\""), (b"b'", b"'")];
    let mut texts = Vec::new();
    for scalar in TABLE_3_7.iter().flat_map(|row| at_boundaries(row)) {
        for (before, after) in around {
            texts.push([before, &scalar, after].concat());
        }
    }
    texts
}
