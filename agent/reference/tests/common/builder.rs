//! Class files from parts, also wrong ones.

use std::collections::BTreeMap;

pub const PUBLIC: u16 = 0x0001;
pub const PUBLIC_STATIC: u16 = 0x0009;

pub struct ClassBuilder {
    pool: Vec<Vec<u8>>,
    known: BTreeMap<Vec<u8>, u16>,
    this: u16,
    parent: u16,
    fields: Vec<Vec<u8>>,
    methods: Vec<Vec<u8>>,
    /// Count and attributes that end the class.
    pub attributes: Vec<u8>,
}

/// The parts of a Code attribute.
#[derive(Default)]
pub struct Body<'b> {
    pub stack: u16,
    pub locals: u16,
    pub code: &'b [u8],
    pub table: &'b [[u16; 4]],
    /// Content of the StackMapTable.
    pub frames: Option<&'b [u8]>,
}

impl ClassBuilder {
    pub fn new(name: &str, parent: &str) -> ClassBuilder {
        let mut builder = ClassBuilder {
            pool: Vec::new(),
            known: BTreeMap::new(),
            this: 0,
            parent: 0,
            fields: Vec::new(),
            methods: Vec::new(),
            attributes: vec![0, 0],
        };
        builder.this = builder.class(name);
        if !parent.is_empty() {
            builder.parent = builder.class(parent);
        }
        builder
    }

    pub fn text(&mut self, text: &str) -> u16 {
        let mut entry = vec![1];
        entry.extend((text.len() as u16).to_be_bytes());
        entry.extend(text.as_bytes());
        self.entry(entry)
    }

    pub fn class(&mut self, name: &str) -> u16 {
        let name = self.text(name);
        self.pair(7, &[name])
    }

    pub fn field_reference(&mut self, class: &str, name: &str, descriptor: &str) -> [u8; 2] {
        self.member_reference(9, class, name, descriptor)
    }

    pub fn method_reference(&mut self, class: &str, name: &str, descriptor: &str) -> [u8; 2] {
        self.member_reference(10, class, name, descriptor)
    }

    pub fn field(&mut self, name: &str, descriptor: &str) {
        let (name, descriptor) = (self.text(name), self.text(descriptor));
        self.fields.push(numbers(&[PUBLIC, name, descriptor, 0]));
    }

    pub fn method(&mut self, access: u16, name: &str, descriptor: &str, body: Body<'_>) {
        let mut content = numbers(&[body.stack, body.locals]);
        content.extend((body.code.len() as u32).to_be_bytes());
        content.extend(body.code);
        content.extend(numbers(&[body.table.len() as u16]));
        for entry in body.table {
            content.extend(numbers(entry));
        }
        content.extend(numbers(&[u16::from(body.frames.is_some())]));
        if let Some(frames) = body.frames {
            content.extend(self.attribute("StackMapTable", frames));
        }
        self.raw_method(access, name, descriptor, &content);
    }

    /// A method whose Code has any content.
    pub fn raw_method(&mut self, access: u16, name: &str, descriptor: &str, content: &[u8]) {
        let (name, descriptor) = (self.text(name), self.text(descriptor));
        let mut method = numbers(&[access, name, descriptor, 1]);
        method.extend(self.attribute("Code", content));
        self.methods.push(method);
    }

    pub fn attribute(&mut self, name: &str, content: &[u8]) -> Vec<u8> {
        let mut attribute = self.text(name).to_be_bytes().to_vec();
        attribute.extend((content.len() as u32).to_be_bytes());
        attribute.extend(content);
        attribute
    }

    pub fn bytes(&self) -> Vec<u8> {
        let mut bytes = vec![0xca, 0xfe, 0xba, 0xbe];
        bytes.extend(numbers(&[0, 52, self.pool.len() as u16 + 1]));
        bytes.extend(self.pool.concat());
        bytes.extend(numbers(&[0x0021, self.this, self.parent, 0]));
        for members in [&self.fields, &self.methods] {
            bytes.extend(numbers(&[members.len() as u16]));
            bytes.extend(members.concat());
        }
        bytes.extend(&self.attributes);
        bytes
    }

    fn member_reference(&mut self, tag: u8, class: &str, name: &str, kind: &str) -> [u8; 2] {
        let (name, kind) = (self.text(name), self.text(kind));
        let class = self.class(class);
        let name_and_type = self.pair(12, &[name, kind]);
        self.pair(tag, &[class, name_and_type]).to_be_bytes()
    }

    fn pair(&mut self, tag: u8, indices: &[u16]) -> u16 {
        let mut entry = vec![tag];
        entry.extend(numbers(indices));
        self.entry(entry)
    }

    fn entry(&mut self, entry: Vec<u8>) -> u16 {
        let next = self.pool.len() as u16 + 1;
        let index = *self.known.entry(entry.clone()).or_insert(next);
        if index == next {
            self.pool.push(entry);
        }
        index
    }
}

pub fn numbers(values: &[u16]) -> Vec<u8> {
    let bytes = values.iter().flat_map(|value| value.to_be_bytes());
    bytes.collect()
}
