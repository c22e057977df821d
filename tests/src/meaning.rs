//! Document 01, "Meaning" and "Refusals and their order", with document 02's requests: all faults of each stage are
//! collected as place and number, and the least one of the first stage that has any is the
//! answer. A text without faults gives the rows of the four tables and the counts.

use crate::amount::Amount;
use crate::grammar::{stage, Stage};
use crate::token::KINDS;
use crate::tree::{self, Choice, Definition, File, Form, Kind, Object, Part, Range};
use crate::tree::{Spec, Statement, Type, Value};
use std::collections::{HashMap, HashSet};
use std::hash::Hash;

pub const LONGEST_TEXT: usize = 65_535;
pub const MOST_DEFINITIONS: usize = 512;
pub const MOST_ENUMERATORS: usize = 1_024;
pub const MOST_OBJECTS: usize = 256;
pub const MOST_PARTS: usize = 512;
pub const MOST_STATEMENTS: usize = 2_048;
pub const MOST_VALUES: usize = 2_048;

#[derive(Clone, Copy, Debug, PartialEq, Eq)]
pub struct Refusal {
    pub number: u8,
    pub place: usize,
}

/// What an accepted text gives.
#[derive(Clone, Debug, PartialEq, Eq)]
pub struct Reading {
    pub definitions: Vec<DefinitionRow>,
    pub enumerators: Vec<EnumeratorRow>,
    pub objects: Vec<ObjectRow>,
    pub values: Vec<ValueRow>,
    /// "counts the objects of each of the thirteen kinds"
    pub counts: [usize; 13],
}

/// "A definition row holds the kind or value word it stands under, its name, type, list
/// mark, WITH_AUTO, range and default." What is not there is 0, 0.
#[derive(Clone, Debug, PartialEq, Eq)]
pub struct DefinitionRow {
    pub under: Part,
    pub name: Part,
    pub type_word: Part,
    pub sort: Type,
    pub is_list: bool,
    pub with_auto: bool,
    pub range: Part,
    pub default: Part,
}

/// "an enumerator row its attribute and name"
#[derive(Clone, Debug, PartialEq, Eq)]
pub struct EnumeratorRow {
    pub attribute: usize,
    pub name: Part,
}

/// "an object row its kind, name and block"; "The object row holds its first part's block and its
/// number of parts" (Q-2).
#[derive(Clone, Debug, PartialEq, Eq)]
pub struct ObjectRow {
    pub kind: Kind,
    pub kind_word: Part,
    pub name: Part,
    pub block: Part,
    pub parts: usize,
}

/// "Each holds its definition, owner, value, whether it was stated, and the place and length
/// of the value word."
#[derive(Clone, Debug, PartialEq, Eq)]
pub struct ValueRow {
    pub definition: usize,
    pub owner: Owner,
    pub value: Resolved,
    pub stated: bool,
    pub word: Part,
}

/// "its object, or the resolved value it is under"
#[derive(Clone, Copy, Debug, PartialEq, Eq)]
pub enum Owner {
    Object(usize),
    Value(usize),
}

/// "a number, TRUE, FALSE, AUTO, an enumerator's or object's row; a string is its value word".
/// "In a row a float, like a string, is its value word".
#[derive(Clone, Copy, Debug, PartialEq, Eq)]
pub enum Resolved {
    Number(i128),
    Float,
    True,
    False,
    Auto,
    Enumerator(usize),
    Object(usize),
    String,
}

/// A fault's place and number: the least is the leftmost, then the one of smaller number.
type Fault = (usize, u8);

/// The tree of a text that passes the stages of 2 and of 3 to 5.
fn parsed(text: &[u8]) -> Result<File, Refusal> {
    if text.len() > LONGEST_TEXT {
        return Err(Refusal {
            number: 2,
            place: 0,
        });
    }
    if let Stage::Refused { number, place } = stage(text) {
        return Err(Refusal { number, place });
    }
    Ok(tree::file(text))
}

/// Reads a text: stages 2 to 19, in their order.
pub fn read(text: &[u8]) -> Result<Reading, Refusal> {
    let file = parsed(text)?;
    let meaning = Meaning::new(text, &file);
    least(meaning.definition_faults())?;
    least(meaning.object_faults())?;
    least(meaning.statement_faults())?;
    let values = meaning.values();
    if values.len() > MOST_VALUES {
        return Err(Refusal {
            number: 19,
            place: 0,
        });
    }
    Ok(meaning.reading(values))
}

/// A statement that is dropped where a text is mended: from its name through its semicolon, and
/// the number of its fault, 13 or 14.
#[derive(Clone, Copy, Debug, PartialEq, Eq)]
pub struct Drop {
    pub part: Part,
    pub number: u8,
}

/// Q-11: "Given a text that passes all stages before 13 (another gives its refusal), drop each
/// statement at fault by 13 or 14, from its name through its semicolon"; in text order.
pub fn drops(text: &[u8]) -> Result<Vec<Drop>, Refusal> {
    let file = parsed(text)?;
    let meaning = Meaning::new(text, &file);
    least(meaning.definition_faults())?;
    least(meaning.object_faults())?;
    let mut drops = Vec::new();
    for object in &meaning.objects {
        let scope = meaning.scope_of(object.first);
        meaning.block_drops(scope, &object.statements, &mut drops);
    }
    drops.sort_by_key(|drop| drop.part.place);
    Ok(drops)
}

/// "by the leftmost place, then the smaller number"
fn least(faults: Vec<Fault>) -> Result<(), Refusal> {
    match faults.into_iter().min() {
        Some((place, number)) => Err(Refusal { number, place }),
        None => Ok(()),
    }
}

/// Of words with something to know them by, those known from an earlier one.
fn second_times<K: Eq + Hash>(words: impl Iterator<Item = (K, Part)>) -> Vec<Part> {
    let mut seen = HashSet::new();
    words
        .filter_map(|(key, word)| (!seen.insert(key)).then_some(word))
        .collect()
}

/// The least and greatest number of an integer type.
fn bounds_of(sort: Type) -> Option<(i128, i128)> {
    match sort {
        Type::Uint32 => Some((0, u32::MAX.into())),
        Type::Int32 => Some((i32::MIN.into(), i32::MAX.into())),
        Type::Uint64 => Some((0, u64::MAX.into())),
        Type::Int64 => Some((i64::MIN.into(), i64::MAX.into())),
        _ => None,
    }
}

fn number_of(value: &Value) -> i128 {
    match value.form {
        Form::Number(number) => number,
        _ => panic!("a number by the grammar"),
    }
}

fn amount_of(value: &Value) -> Amount {
    match value.form {
        Form::Float(float) => float.into(),
        _ => panic!("a float by the grammar"),
    }
}

fn choices_of(definition: &Definition) -> &[Choice] {
    match &definition.range {
        Range::Choices(choices) => choices,
        _ => &[],
    }
}

/// Whether a bound of a range is above another: both are numbers, or both floats.
fn is_above(low: &Value, high: &Value) -> bool {
    match low.form {
        Form::Float(_) => amount_of(low) > amount_of(high),
        _ => number_of(low) > number_of(high),
    }
}

/// The fewest and most objects of a kind: "OS one and one; APPMODE at least one; COM and NM
/// at most one".
fn fewest_and_most(kind: Kind) -> (usize, usize) {
    match KINDS[kind] {
        "OS" => (1, 1),
        "APPMODE" => (1, usize::MAX),
        "COM" | "NM" => (0, 1),
        _ => (0, usize::MAX),
    }
}

/// "a part of a kind and name used before, with braces or without, continues that object".
struct Merged<'t> {
    first: &'t Object,
    parts: usize,
    /// The statements of all parts, in text order.
    statements: Vec<&'t Statement>,
}

/// A text, its tree, and its words found again by what they are.
struct Meaning<'t> {
    text: &'t [u8],
    file: &'t File,
    /// All definitions and the word that each stands under, in the order of their names.
    definitions: Vec<(&'t Definition, Part)>,
    /// All enumerators and the attribute of each, in the order of their names.
    enumerators: Vec<(&'t Choice, &'t Definition)>,
    /// All statements, nested ones too, in the order of their names.
    statements: Vec<&'t Statement>,
    /// The objects, in the order of their first parts.
    objects: Vec<Merged<'t>>,
    /// The row of each object by its kind and name.
    rows: HashMap<(Kind, &'t [u8]), usize>,
}

impl<'t> Meaning<'t> {
    fn new(text: &'t [u8], file: &'t File) -> Meaning<'t> {
        let mut meaning = Meaning {
            text,
            file,
            definitions: Vec::new(),
            enumerators: Vec::new(),
            statements: Vec::new(),
            objects: Vec::new(),
            rows: HashMap::new(),
        };
        for spec in &file.specs {
            meaning.gather_definitions(&spec.definitions, spec.kind_word);
        }
        meaning
            .definitions
            .sort_by_key(|(definition, _)| definition.name.place);
        meaning
            .enumerators
            .sort_by_key(|(choice, _)| choice.word.place);
        for part in &file.objects {
            meaning.gather_part(part);
            meaning.gather_statements(&part.statements);
        }
        meaning
            .statements
            .sort_by_key(|statement| statement.name.place);
        meaning
    }

    fn gather_definitions(&mut self, definitions: &'t [Definition], under: Part) {
        for definition in definitions {
            self.definitions.push((definition, under));
            for choice in choices_of(definition) {
                if definition.sort == Type::Enum {
                    self.enumerators.push((choice, definition));
                }
                self.gather_definitions(&choice.definitions, choice.word);
            }
        }
    }

    /// A new object, or a further part of one.
    fn gather_part(&mut self, part: &'t Object) {
        let next = self.objects.len();
        let key = (part.kind, part.name.of(self.text));
        let row = *self.rows.entry(key).or_insert(next);
        if row == next {
            self.objects.push(Merged {
                first: part,
                parts: 0,
                statements: Vec::new(),
            });
        }
        self.objects[row].parts += 1;
        self.objects[row].statements.extend(&part.statements);
    }

    fn gather_statements(&mut self, statements: &'t [Statement]) {
        for statement in statements {
            self.statements.push(statement);
            self.gather_statements(&statement.statements);
        }
    }

    fn word(&self, part: Part) -> &'t [u8] {
        part.of(self.text)
    }

    /// The definitions under each kind and each value.
    fn scopes(&self) -> Vec<&'t [Definition]> {
        let of_kinds = self.file.specs.iter().map(|spec| &spec.definitions[..]);
        let of_values = self
            .definitions
            .iter()
            .flat_map(|(definition, _)| choices_of(definition))
            .map(|choice| &choice.definitions[..]);
        of_kinds.chain(of_values).collect()
    }

    /// Refusals 6 to 9 and 21 to 23.
    fn definition_faults(&self) -> Vec<Fault> {
        let mut faults = Vec::new();
        if self.word(self.file.version) != b"\"2.5\"" {
            faults.push((self.file.version.place, 6));
        }
        if let Some((definition, _)) = self.definitions.get(MOST_DEFINITIONS) {
            faults.push((definition.name.place, 7));
        }
        if let Some((enumerator, _)) = self.enumerators.get(MOST_ENUMERATORS) {
            faults.push((enumerator.word.place, 7));
        }
        let kinds = self
            .file
            .specs
            .iter()
            .map(|spec| (spec.kind, spec.kind_word));
        let mut again = second_times(kinds);
        for scope in self.scopes() {
            let names = scope.iter().map(|definition| definition.name);
            again.extend(second_times(names.map(|name| (self.word(name), name))));
        }
        for (definition, _) in &self.definitions {
            let words = choices_of(definition).iter().map(|choice| choice.word);
            again.extend(second_times(words.map(|word| (self.word(word), word))));
            faults.extend(self.type_faults(definition));
            faults.extend(self.range_and_default_faults(definition));
        }
        faults.extend(again.into_iter().map(|word| (word.place, 8)));
        faults
    }

    /// Refusal 9: "same name under two values of one attribute, type words differ from the
    /// first".
    fn type_faults(&self, definition: &Definition) -> Vec<Fault> {
        let choices = choices_of(definition);
        let under: Vec<(usize, &Definition)> = choices
            .iter()
            .enumerate()
            .flat_map(|(value, choice)| choice.definitions.iter().map(move |under| (value, under)))
            .collect();
        let mut first: HashMap<&[u8], (usize, Type)> = HashMap::new();
        let mut faults = Vec::new();
        for (value, under) in under {
            let name = self.word(under.name);
            let (first_value, first_sort) = *first.entry(name).or_insert((value, under.sort));
            if value != first_value && under.sort != first_sort {
                faults.push((under.name.place, 9));
            }
        }
        faults
    }

    /// Q-1: "21 for a bound or listed number outside its type or a low above its high, 22 for a
    /// default outside type, range or enumerator list, 23 for AUTO as a default without
    /// WITH_AUTO".
    fn range_and_default_faults(&self, definition: &Definition) -> Vec<Fault> {
        let bounds: &[Value] = match &definition.range {
            Range::Between(low, high) => &[*low, *high],
            Range::Listed(numbers) => numbers,
            _ => &[],
        };
        let mut at_fault: Vec<(&Value, u8)> = Vec::new();
        if let Some((least, greatest)) = bounds_of(definition.sort) {
            let outside = |bound: &&Value| !(least..=greatest).contains(&number_of(bound));
            at_fault.extend(bounds.iter().filter(outside).map(|bound| (bound, 21)));
        }
        if let Range::Between(low, high) = &definition.range {
            if is_above(low, high) {
                at_fault.push((low, 21));
            }
        }
        if let Some(default) = &definition.default {
            if default.form != Form::NoDefault && !self.is_inside(definition, default) {
                let is_auto = default.form == Form::Auto;
                at_fault.push((default, if is_auto { 23 } else { 22 }));
            }
        }
        at_fault
            .iter()
            .map(|&(value, number)| (value.word.place, number))
            .collect()
    }

    /// Whether a value is of the attribute's sort and inside its type, range or list; for a
    /// reference only whether it is a name.
    fn is_inside(&self, definition: &Definition, value: &Value) -> bool {
        match (definition.sort, value.form) {
            (_, Form::Auto) => definition.with_auto,
            (Type::String, Form::String) => true,
            (Type::Boolean, Form::True | Form::False) => true,
            (Type::Enum, Form::Name) => self.choice(definition, value).is_some(),
            (Type::Reference(_), Form::Name) => true,
            (Type::Float, Form::Float(_)) => match &definition.range {
                Range::Between(low, high) => {
                    (amount_of(low)..=amount_of(high)).contains(&amount_of(value))
                }
                _ => true,
            },
            (sort, Form::Number(number)) => {
                let in_type = match bounds_of(sort) {
                    Some((least, greatest)) => (least..=greatest).contains(&number),
                    None => false,
                };
                in_type
                    && match &definition.range {
                        Range::Between(low, high) => {
                            (number_of(low)..=number_of(high)).contains(&number)
                        }
                        Range::Listed(numbers) => {
                            numbers.iter().any(|listed| number_of(listed) == number)
                        }
                        _ => true,
                    }
            }
            _ => false,
        }
    }

    /// The value of a BOOLEAN's or ENUM's list that has this word.
    fn choice(&self, definition: &'t Definition, value: &Value) -> Option<&'t Choice> {
        let word = self.word(value.word);
        let mut choices = choices_of(definition).iter();
        choices.find(|choice| self.word(choice.word) == word)
    }

    /// "statements in braces after a value belong to the definitions under that value.
    /// BOOLEAN without a list has nothing under it."
    fn under(&self, definition: &'t Definition, value: &Value) -> &'t [Definition] {
        match self.choice(definition, value) {
            Some(choice) => &choice.definitions,
            None => &[],
        }
    }

    /// Refusals 11, 17 and 24. Q-2: "The limit of 256 counts objects, and 512 counts parts; both give
    /// 11 at the kind word"; "A further part of an OS, COM or NM is no second one for 17".
    /// "a name already used by an object of another kind, placed at the later name".
    fn object_faults(&self) -> Vec<Fault> {
        let objects = &self.objects;
        let mut faults = Vec::new();
        if let Some(object) = objects.get(MOST_OBJECTS) {
            faults.push((object.first.kind_word.place, 11));
        }
        if let Some(part) = self.file.objects.get(MOST_PARTS) {
            faults.push((part.kind_word.place, 11));
        }
        if let Some(statement) = self.statements.get(MOST_STATEMENTS) {
            faults.push((statement.name.place, 11));
        }
        // Objects of one name are of different kinds.
        let names = objects.iter().map(|object| object.first.name);
        let used = second_times(names.map(|name| (self.word(name), name)));
        faults.extend(used.into_iter().map(|name| (name.place, 24)));
        for kind in 0..KINDS.len() {
            let (fewest, most) = fewest_and_most(kind);
            let of_kind = || {
                objects
                    .iter()
                    .filter(move |object| object.first.kind == kind)
            };
            if of_kind().count() < fewest {
                faults.push((self.file.cpu_name.place, 17));
            }
            faults.extend(
                of_kind()
                    .skip(most)
                    .map(|object| (object.first.kind_word.place, 17)),
            );
        }
        faults
    }

    /// "an object's statements belong to the definitions of its kind"
    fn scope_of(&self, object: &Object) -> &'t [Definition] {
        let is_its = |spec: &&Spec| spec.kind == object.kind;
        match self.file.specs.iter().find(is_its) {
            Some(spec) => &spec.definitions,
            None => &[],
        }
    }

    /// Refusals 13 to 16 and 18. Q-2: "Refusals 14 and 16 are judged over all parts, 14 placed at
    /// the later name, 16 of the object itself at the first part's name".
    fn statement_faults(&self) -> Vec<Fault> {
        let mut faults = Vec::new();
        for object in &self.objects {
            let scope = self.scope_of(object.first);
            self.block_faults(scope, &object.statements, object.first.name, &mut faults);
        }
        faults
    }

    fn is_named(&self, statement: &Statement, definition: &Definition) -> bool {
        self.word(statement.name) == self.word(definition.name)
    }

    /// The faults of statements that belong to a scope, and of what is not stated there;
    /// `owner` is the nearest one stated.
    fn block_faults(
        &self,
        scope: &'t [Definition],
        statements: &[&Statement],
        owner: Part,
        faults: &mut Vec<Fault>,
    ) {
        for (index, statement) in statements.iter().enumerate() {
            let mut of_scope = scope.iter();
            let Some(definition) = of_scope.find(|of_scope| self.is_named(statement, of_scope))
            else {
                faults.push((statement.name.place, 13));
                continue;
            };
            let mut earlier = statements[..index].iter();
            if !definition.is_list && earlier.any(|earlier| self.is_named(earlier, definition)) {
                faults.push((statement.name.place, 14));
                continue;
            }
            if let Some(fault) = self.value_fault(definition, statement) {
                faults.push(fault);
                continue;
            }
            let under = self.under(definition, &statement.value);
            let inside: Vec<&Statement> = statement.statements.iter().collect();
            self.block_faults(under, &inside, statement.value.word, faults);
        }
        for definition in scope {
            if statements
                .iter()
                .any(|stated| self.is_named(stated, definition))
            {
                continue;
            }
            match &definition.default {
                Some(value) if value.form != Form::NoDefault => {
                    self.block_faults(self.under(definition, value), &[], owner, faults);
                }
                _ if definition.is_list => (),
                _ => faults.push((owner.place, 16)),
            }
        }
    }

    /// The drops among statements that belong to a scope. "A statement at fault by 13, 14, 15 or 18
    /// adds no fault from its braces".
    fn block_drops(
        &self,
        scope: &'t [Definition],
        statements: &[&Statement],
        drops: &mut Vec<Drop>,
    ) {
        let mut stated = HashSet::new();
        for statement in statements {
            let is_again = !stated.insert(self.word(statement.name));
            let mut of_scope = scope.iter();
            let definition = of_scope.find(|of_scope| self.is_named(statement, of_scope));
            let number = match definition {
                None => 13,
                Some(definition) if is_again && !definition.is_list => 14,
                Some(definition) => {
                    if self.value_fault(definition, statement).is_none() {
                        let inside: Vec<&Statement> = statement.statements.iter().collect();
                        self.block_drops(self.under(definition, &statement.value), &inside, drops);
                    }
                    continue;
                }
            };
            drops.push(Drop {
                part: statement.whole,
                number,
            });
        }
    }

    /// Refusal 15 or 18 of one statement.
    fn value_fault(&self, definition: &'t Definition, statement: &Statement) -> Option<Fault> {
        let value = &statement.value;
        if !self.is_inside(definition, value) {
            return Some((value.word.place, 15));
        }
        if let Type::Reference(kind) = definition.sort {
            if !self.rows.contains_key(&(kind, self.word(value.word))) {
                return Some((value.word.place, 18));
            }
            return statement.brace.map(|brace| (brace, 15));
        }
        None
    }

    /// "Resolved values come object by object in text order"; "List entries keep text order across
    /// parts" (Q-2).
    fn values(&self) -> Vec<ValueRow> {
        let mut rows = Vec::new();
        for (row, object) in self.objects.iter().enumerate() {
            let scope = self.scope_of(object.first);
            self.values_of(scope, &object.statements, Owner::Object(row), &mut rows);
        }
        rows
    }

    /// "inside an object in definition order, entries of a list in text order, each followed
    /// by what is under it"; an attribute not stated takes its default.
    fn values_of(
        &self,
        scope: &'t [Definition],
        statements: &[&Statement],
        owner: Owner,
        rows: &mut Vec<ValueRow>,
    ) {
        for definition in scope {
            let stated = |statement: &&&Statement| self.is_named(statement, definition);
            let mut given: Vec<(&Value, &[Statement], bool)> = statements
                .iter()
                .filter(stated)
                .map(|statement| (&statement.value, &statement.statements[..], true))
                .collect();
            if given.is_empty() {
                let default = definition.default.iter();
                let default = default.filter(|value| value.form != Form::NoDefault);
                given.extend(default.map(|value| (value, &[][..], false)));
            }
            for (value, inside, stated) in given {
                let row = rows.len();
                rows.push(ValueRow {
                    definition: self.definition_row(definition),
                    owner,
                    value: self.resolved(definition, value),
                    stated,
                    word: value.word,
                });
                let under = self.under(definition, value);
                let inside: Vec<&Statement> = inside.iter().collect();
                self.values_of(under, &inside, Owner::Value(row), rows);
            }
        }
    }

    fn definition_row(&self, definition: &Definition) -> usize {
        self.definitions
            .binary_search_by_key(&definition.name.place, |(row, _)| row.name.place)
            .expect("each definition has a row")
    }

    fn enumerator_row(&self, choice: &Choice) -> usize {
        self.enumerators
            .binary_search_by_key(&choice.word.place, |(row, _)| row.word.place)
            .expect("each enumerator has a row")
    }

    fn resolved(&self, definition: &'t Definition, value: &Value) -> Resolved {
        match (value.form, definition.sort) {
            (Form::Number(number), _) => Resolved::Number(number),
            (Form::Float(_), _) => Resolved::Float,
            (Form::String, _) => Resolved::String,
            (Form::True, _) => Resolved::True,
            (Form::False, _) => Resolved::False,
            (Form::Auto, _) => Resolved::Auto,
            (Form::Name, Type::Reference(kind)) => {
                Resolved::Object(self.rows[&(kind, self.word(value.word))])
            }
            (Form::Name, _) => {
                let choice = self.choice(definition, value).expect("judged before");
                Resolved::Enumerator(self.enumerator_row(choice))
            }
            (Form::NoDefault, _) => panic!("no value"),
        }
    }

    fn reading(&self, values: Vec<ValueRow>) -> Reading {
        let definition_row = |&(definition, under): &(&Definition, Part)| DefinitionRow {
            under,
            name: definition.name,
            type_word: definition.type_word,
            sort: definition.sort,
            is_list: definition.is_list,
            with_auto: definition.with_auto,
            range: definition.range_part,
            default: definition
                .default
                .map_or(Part::default(), |value| value.word),
        };
        let enumerator_row = |&(choice, attribute): &(&Choice, &Definition)| EnumeratorRow {
            attribute: self.definition_row(attribute),
            name: choice.word,
        };
        let object_row = |object: &Merged| ObjectRow {
            kind: object.first.kind,
            kind_word: object.first.kind_word,
            name: object.first.name,
            block: object.first.block,
            parts: object.parts,
        };
        let mut counts = [0; 13];
        for object in &self.objects {
            counts[object.first.kind] += 1;
        }
        Reading {
            definitions: self.definitions.iter().map(definition_row).collect(),
            enumerators: self.enumerators.iter().map(enumerator_row).collect(),
            objects: self.objects.iter().map(object_row).collect(),
            values,
            counts,
        }
    }
}
