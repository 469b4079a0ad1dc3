//! Records as fields, in range or not, and their bytes.

/// The bytes of each field by kind; 0 is no kind.
const WIDTHS: [&[usize]; 5] = [
    &[],
    &[4, 4, 4, 4, 1],
    &[1, 1, 4, 4],
    &[1, 1, 1, 2],
    &[1, 1, 4, 4, 4],
];

#[derive(Clone, Debug)]
pub struct Record {
    pub kind: u8,
    /// A negative phase stands here as its two's complement.
    pub fields: Vec<u32>,
}

impl Record {
    pub fn new(kind: u8, fields: &[u32]) -> Record {
        let fields = fields.to_vec();
        Record { kind, fields }
    }

    /// A rate's triple and tokens.
    pub fn rate(channel: usize, side: usize, part: usize, tokens: u16) -> Record {
        Record::new(
            3,
            &[channel as u32, side as u32, part as u32, tokens.into()],
        )
    }

    /// What never goes down in a file: the kind and, among rates, the triple.
    pub fn rank(&self) -> (u8, Vec<u32>) {
        let triple = if self.kind == 3 { 3 } else { 0 };
        (self.kind, self.fields[..triple].to_vec())
    }

    fn encode(&self, file: &mut Vec<u8>) {
        file.push(self.kind);
        for (field, width) in self.fields.iter().zip(WIDTHS[usize::from(self.kind)]) {
            file.extend_from_slice(&field.to_be_bytes()[4 - width..]);
        }
    }
}

/// The file of these records.
pub fn file(records: &[Record]) -> Vec<u8> {
    let mut bytes = Vec::new();
    for record in records {
        record.encode(&mut bytes);
    }
    bytes
}
