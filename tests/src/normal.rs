//! Document 01, "Normal text": an accepted text written out with every value stated.

use crate::meaning::{read, Owner, Reading, Refusal, Resolved};
use crate::tree::{self, Part};

/// The normal text of a text, whatever its length.
pub fn normal(text: &[u8]) -> Result<Vec<u8>, Refusal> {
    Ok(write(text, &read(text)?))
}

/// The normal text of an accepted text, of what was read from it.
pub fn write(text: &[u8], reading: &Reading) -> Vec<u8> {
    let file = tree::file(text);
    let mut written = b"OIL_VERSION = \"2.5\";\n".to_vec();
    written.extend(
        [
            file.implementation.of(text),
            b"\nCPU ",
            file.cpu_name.of(text),
        ]
        .concat(),
    );
    written.extend(b" {\n");
    let writer = Writer::new(text, reading);
    for (row, object) in reading.objects.iter().enumerate() {
        written.extend(
            [
                object.kind_word.of(text),
                b" ",
                object.name.of(text),
                b" {\n",
            ]
            .concat(),
        );
        for &value in &writer.under_objects[row] {
            writer.write(value, &mut written);
        }
        written.extend(b"};\n");
    }
    written.extend(b"};\n");
    written
}

/// The normal text, refused by 20 where it is longer than the lent output.
pub fn normal_within(text: &[u8], lent: usize) -> Result<Vec<u8>, Refusal> {
    let written = normal(text)?;
    if written.len() > lent {
        return Err(Refusal {
            number: 20,
            place: 0,
        });
    }
    Ok(written)
}

/// What document 01's program writes: the normal text, or `refused`, tab, number, tab, place
/// in a line. "The program lends 65,535 bytes for the output."
pub fn program(text: &[u8]) -> Vec<u8> {
    match normal_within(text, 65_535) {
        Ok(written) => written,
        Err(Refusal { number, place }) => format!("refused\t{number}\t{place}\n").into_bytes(),
    }
}

/// All that a reading says but places, lengths, the stated mark and the numbers of parts, with
/// words in their place: "Read back, all is the same"; "read back, each number of parts is one".
pub fn without_places(text: &[u8], reading: &Reading) -> String {
    let word = |part: Part| part.of(text).escape_ascii().to_string();
    let mut all = format!("{:?}\n", reading.counts);
    for row in &reading.definitions {
        let words = [row.under, row.name, row.type_word, row.range, row.default].map(word);
        all += &format!(
            "{words:?} {:?} {} {}\n",
            row.sort, row.is_list, row.with_auto
        );
    }
    for row in &reading.enumerators {
        all += &format!("{} {}\n", row.attribute, word(row.name));
    }
    for row in &reading.objects {
        all += &format!("{} {} {}\n", row.kind, word(row.kind_word), word(row.name));
    }
    for row in &reading.values {
        let string = match row.value {
            Resolved::String | Resolved::Float => word(row.word),
            _ => String::new(),
        };
        all += &format!(
            "{} {:?} {:?} {string}\n",
            row.definition, row.owner, row.value
        );
    }
    all
}

/// The rows of the values that each object and each value owns.
struct Writer<'t> {
    text: &'t [u8],
    reading: &'t Reading,
    under_objects: Vec<Vec<usize>>,
    under_values: Vec<Vec<usize>>,
}

impl<'t> Writer<'t> {
    fn new(text: &'t [u8], reading: &'t Reading) -> Writer<'t> {
        let mut under_objects = vec![Vec::new(); reading.objects.len()];
        let mut under_values = vec![Vec::new(); reading.values.len()];
        for (row, value) in reading.values.iter().enumerate() {
            match value.owner {
                Owner::Object(owner) => under_objects[owner].push(row),
                Owner::Value(owner) => under_values[owner].push(row),
            }
        }
        Writer {
            text,
            reading,
            under_objects,
            under_values,
        }
    }

    /// "Values with something under them take ` {`, their lines and `};`. Numbers are decimal,
    /// with `-` if negative."
    fn write(&self, row: usize, written: &mut Vec<u8>) {
        let value = &self.reading.values[row];
        let name = self.reading.definitions[value.definition].name;
        written.extend([name.of(self.text), b" = "].concat());
        match value.value {
            Resolved::Number(number) => written.extend(number.to_string().bytes()),
            Resolved::True => written.extend(b"TRUE"),
            Resolved::False => written.extend(b"FALSE"),
            Resolved::Auto => written.extend(b"AUTO"),
            Resolved::Enumerator(row) => {
                written.extend(self.reading.enumerators[row].name.of(self.text));
            }
            Resolved::Object(row) => written.extend(self.reading.objects[row].name.of(self.text)),
            Resolved::String | Resolved::Float => written.extend(value.word.of(self.text)),
        }
        let under = &self.under_values[row];
        if !under.is_empty() {
            written.extend(b" {\n");
            for &row in under {
                self.write(row, written);
            }
            written.extend(b"}");
        }
        written.extend(b";\n");
    }
}
