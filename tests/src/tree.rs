//! The tree of a text that passes the grammar stage. Nothing is judged here: each reader
//! follows a rule of document 01's grammar and trusts that the tokens are as it says.

use crate::token::{step, Float, Sort, Step, Token};

/// A part of the text: a word, a range, a block. Where there is none it is 0, 0.
#[derive(Clone, Copy, Debug, Default, PartialEq, Eq)]
pub struct Part {
    pub place: usize,
    pub length: usize,
}

impl Part {
    pub fn of<'t>(&self, text: &'t [u8]) -> &'t [u8] {
        &text[self.place..self.place + self.length]
    }

    /// From the first byte of this part through the last of another.
    fn through(self, last: Part) -> Part {
        Part {
            place: self.place,
            length: last.place + last.length - self.place,
        }
    }
}

/// A kind, by its number in document 01's order, from 0.
pub type Kind = usize;

#[derive(Clone, Copy, Debug, PartialEq, Eq)]
pub enum Type {
    Uint32,
    Int32,
    Uint64,
    Int64,
    String,
    Boolean,
    Enum,
    Float,
    Reference(Kind),
}

pub struct File {
    /// The version's string.
    pub version: Part,
    /// From the word IMPLEMENTATION through its semicolon.
    pub implementation: Part,
    pub implementation_name: Part,
    pub specs: Vec<Spec>,
    pub cpu_name: Part,
    pub objects: Vec<Object>,
}

pub struct Spec {
    pub kind: Kind,
    pub kind_word: Part,
    pub definitions: Vec<Definition>,
}

/// An attribute or a reference.
pub struct Definition {
    pub sort: Type,
    pub type_word: Part,
    pub with_auto: bool,
    /// From `[` through `]`.
    pub range_part: Part,
    pub range: Range,
    pub name: Part,
    pub is_list: bool,
    pub default: Option<Value>,
}

pub enum Range {
    Nothing,
    Between(Value, Value),
    Listed(Vec<Value>),
    /// The values of a BOOLEAN or ENUM, in text order.
    Choices(Vec<Choice>),
}

/// A value of a list and the definitions under it.
pub struct Choice {
    pub word: Part,
    pub definitions: Vec<Definition>,
}

/// A number, default or statement's value.
#[derive(Clone, Copy)]
pub struct Value {
    pub word: Part,
    pub form: Form,
}

#[derive(Clone, Copy, PartialEq, Eq)]
pub enum Form {
    Number(i128),
    Float(Float),
    String,
    True,
    False,
    Auto,
    NoDefault,
    Name,
}

/// An object, or a part of one (document 02, Q-2).
pub struct Object {
    pub kind: Kind,
    pub kind_word: Part,
    pub name: Part,
    /// From `{` through `}`.
    pub block: Part,
    pub statements: Vec<Statement>,
}

pub struct Statement {
    /// From its name through its semicolon.
    pub whole: Part,
    pub name: Part,
    pub value: Value,
    /// The place of the `{` after the value.
    pub brace: Option<usize>,
    pub statements: Vec<Statement>,
}

/// The tree of a text that passes the grammar stage.
pub fn file(text: &[u8]) -> File {
    let mut tokens = Vec::new();
    let mut place = 0;
    while let Step::Token(token, next) = step(text, place) {
        tokens.push(token);
        place = next;
    }
    Reader { tokens, next: 0 }.file()
}

struct Reader {
    tokens: Vec<Token>,
    next: usize,
}

impl Reader {
    fn token(&mut self) -> Token {
        self.next += 1;
        self.tokens[self.next - 1]
    }

    fn part(&mut self) -> Part {
        let Token { place, length, .. } = self.token();
        Part { place, length }
    }

    fn skip(&mut self, count: usize) {
        self.next += count;
    }

    fn is(&self, byte: u8) -> bool {
        self.tokens[self.next].sort == Sort::Punctuator(byte)
    }

    /// Goes over the next token if it is this one.
    fn took(&mut self, byte: u8) -> bool {
        let is = self.is(byte);
        self.next += usize::from(is);
        is
    }

    /// D: nothing or `:` string.
    fn description(&mut self) {
        if self.took(b':') {
            self.skip(1);
        }
    }

    /// D and the semicolon, which is returned.
    fn end(&mut self) -> Part {
        self.description();
        self.part()
    }

    /// All that `one` reads up to the closing brace; and the part from `{` through `}`.
    fn braces<T>(&mut self, one: impl Fn(&mut Self) -> T) -> (Vec<T>, Part) {
        let first = self.part();
        let mut inside = Vec::new();
        while !self.is(b'}') {
            inside.push(one(self));
        }
        (inside, first.through(self.part()))
    }

    fn file(&mut self) -> File {
        self.skip(2);
        let version = self.part();
        self.end();
        let first = self.part();
        let implementation_name = self.part();
        let (specs, _) = self.braces(Self::spec);
        let implementation = first.through(self.end());
        self.skip(1);
        let cpu_name = self.part();
        let (objects, _) = self.braces(Self::object);
        File {
            version,
            implementation,
            implementation_name,
            specs,
            cpu_name,
            objects,
        }
    }

    fn kind(&mut self) -> (Kind, Part) {
        let Sort::Word(code @ 9..=21) = self.tokens[self.next].sort else {
            panic!("a kind's word");
        };
        (Kind::from(code) - 9, self.part())
    }

    fn spec(&mut self) -> Spec {
        let (kind, kind_word) = self.kind();
        let (definitions, _) = self.braces(Self::definition);
        self.end();
        Spec {
            kind,
            kind_word,
            definitions,
        }
    }

    fn definition(&mut self) -> Definition {
        let sort = match self.tokens[self.next].sort {
            Sort::Word(code @ 22..=34) => Type::Reference(Kind::from(code) - 22),
            Sort::Word(35) => Type::Uint32,
            Sort::Word(36) => Type::Int32,
            Sort::Word(37) => Type::Uint64,
            Sort::Word(38) => Type::Int64,
            Sort::Word(39) => Type::String,
            Sort::Word(40) => Type::Boolean,
            Sort::Word(41) => Type::Enum,
            Sort::Word(42) => Type::Float,
            _ => panic!("a type's word"),
        };
        let type_word = self.part();
        let with_auto = self.tokens[self.next].sort == Sort::Word(5);
        self.skip(usize::from(with_auto));
        let (range, range_part) = match self.is(b'[') {
            true => self.range(sort),
            false => (Range::Nothing, Part::default()),
        };
        let name = self.part();
        let is_list = self.took(b'[');
        self.skip(usize::from(is_list));
        let default = match self.took(b'=') {
            true => Some(self.value()),
            false => None,
        };
        self.end();
        Definition {
            sort,
            type_word,
            with_auto,
            range_part,
            range,
            name,
            is_list,
            default,
        }
    }

    fn range(&mut self, sort: Type) -> (Range, Part) {
        let first = self.part();
        let range = match sort {
            Type::Boolean | Type::Enum => Range::Choices(self.parted_by_commas(Self::choice)),
            _ => {
                let numbers = self.parted_by_commas(Self::value);
                match self.took(b'.') {
                    true => Range::Between(numbers[0], self.value()),
                    false => Range::Listed(numbers),
                }
            }
        };
        (range, first.through(self.part()))
    }

    fn parted_by_commas<T>(&mut self, one: impl Fn(&mut Self) -> T) -> Vec<T> {
        let mut all = vec![one(self)];
        while self.took(b',') {
            all.push(one(self));
        }
        all
    }

    fn choice(&mut self) -> Choice {
        let word = self.part();
        let definitions = match self.is(b'{') {
            true => self.braces(Self::definition).0,
            false => Vec::new(),
        };
        self.description();
        Choice { word, definitions }
    }

    fn value(&mut self) -> Value {
        let form = match self.tokens[self.next].sort {
            Sort::Number { negative, amount } if negative => Form::Number(-i128::from(amount)),
            Sort::Number { amount, .. } => Form::Number(i128::from(amount)),
            Sort::Float(float) => Form::Float(float),
            Sort::Quoted => Form::String,
            Sort::Word(1) => Form::True,
            Sort::Word(2) => Form::False,
            Sort::Word(3) => Form::Auto,
            Sort::Word(4) => Form::NoDefault,
            _ => Form::Name,
        };
        let word = self.part();
        Value { word, form }
    }

    fn object(&mut self) -> Object {
        let (kind, kind_word) = self.kind();
        let name = self.part();
        let (statements, block) = match self.is(b'{') {
            true => self.braces(Self::statement),
            false => (Vec::new(), Part::default()),
        };
        self.end();
        Object {
            kind,
            kind_word,
            name,
            block,
            statements,
        }
    }

    fn statement(&mut self) -> Statement {
        let name = self.part();
        self.skip(1);
        let value = self.value();
        let brace = self.is(b'{').then(|| self.tokens[self.next].place);
        let statements = match brace {
            Some(_) => self.braces(Self::statement).0,
            None => Vec::new(),
        };
        let whole = name.through(self.end());
        Statement {
            whole,
            name,
            value,
            brace,
            statements,
        }
    }
}
