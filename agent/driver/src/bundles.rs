//! Bundles to measure on, written class by class.

/// A class file that is being written.
struct Class {
    pool: Vec<u8>,
    entries: u16,
    methods: Vec<u8>,
    method_count: u16,
}

impl Class {
    fn new() -> Class {
        Class {
            pool: Vec::new(),
            entries: 0,
            methods: Vec::new(),
            method_count: 0,
        }
    }

    fn entry(&mut self, tag: u8, content: &[u8]) -> u16 {
        self.pool.push(tag);
        self.pool.extend_from_slice(content);
        self.entries += 1;
        self.entries
    }

    fn text(&mut self, text: &str) -> u16 {
        let mut content = (text.len() as u16).to_be_bytes().to_vec();
        content.extend_from_slice(text.as_bytes());
        self.entry(1, &content)
    }

    fn pair(&mut self, tag: u8, first: u16, second: u16) -> u16 {
        let mut content = first.to_be_bytes().to_vec();
        content.extend_from_slice(&second.to_be_bytes());
        self.entry(tag, &content)
    }

    fn class(&mut self, name: &str) -> u16 {
        let text = self.text(name);
        self.entry(7, &text.to_be_bytes())
    }

    /// A method without attributes.
    fn method(&mut self, name: u16, descriptor: u16) {
        self.methods.extend(numbers(&[1, name, descriptor, 0]));
        self.method_count += 1;
    }

    /// A static method of no parameters and no result.
    fn method_of(&mut self, name: &str, code: &Code) {
        let name = self.text(name);
        let descriptor = self.text("()V");
        let content = code.content(self);
        let attribute = self.text("Code");
        self.methods
            .extend(numbers(&[9, name, descriptor, 1, attribute]));
        self.methods.extend(sized(&content));
        self.method_count += 1;
    }

    fn finish(mut self, name: &str, parent: &str) -> Vec<u8> {
        let this = self.class(name);
        let parent = self.class(parent);
        let mut bytes = vec![0xca, 0xfe, 0xba, 0xbe, 0, 0, 0, 52];
        bytes.extend_from_slice(&(self.entries + 1).to_be_bytes());
        bytes.extend_from_slice(&self.pool);
        bytes.extend(numbers(&[0x21, this, parent, 0, 0, self.method_count]));
        bytes.extend_from_slice(&self.methods);
        bytes.extend_from_slice(&[0, 0]);
        bytes
    }
}

/// A method's Code; the frames are those of a StackMapTable, whole.
struct Code {
    stack: u16,
    locals: u16,
    code: Vec<u8>,
    table: Vec<[u16; 4]>,
    frames: Vec<Vec<u8>>,
}

impl Code {
    fn content(&self, class: &mut Class) -> Vec<u8> {
        let mut bytes = numbers(&[self.stack, self.locals]);
        bytes.extend(sized(&self.code));
        bytes.extend(numbers(&[self.table.len() as u16]));
        self.table.iter().for_each(|row| bytes.extend(numbers(row)));
        let attribute = class.text("StackMapTable");
        let mut frames = numbers(&[self.frames.len() as u16]);
        self.frames.iter().for_each(|frame| frames.extend(frame));
        bytes.extend(numbers(&[1, attribute]));
        bytes.extend(sized(&frames));
        bytes
    }
}

fn numbers(numbers: &[u16]) -> Vec<u8> {
    numbers
        .iter()
        .flat_map(|number| number.to_be_bytes())
        .collect()
}

/// The bytes after their length in four bytes.
fn sized(bytes: &[u8]) -> Vec<u8> {
    let mut all = (bytes.len() as u32).to_be_bytes().to_vec();
    all.extend_from_slice(bytes);
    all
}

const NOP: u8 = 0x00;
const ICONST_0: u8 = 0x03;
const ISTORE: u8 = 0x36;
const POP: u8 = 0x57;
const GOTO: u8 = 0xa7;
const RETURN: u8 = 0xb1;

/// A class with one method of so many bytes of code, without a branch.
pub fn straight(length: usize) -> Vec<u8> {
    let mut code = vec![NOP; length - 1];
    code.push(RETURN);
    one_method(Code {
        stack: 0,
        locals: 0,
        code,
        table: Vec::new(),
        frames: Vec::new(),
    })
}

/// A class with one method of so many branches, each to the next instruction, where a frame stands.
pub fn branches(count: usize) -> Vec<u8> {
    let mut code = [GOTO, 0, 3].repeat(count);
    code.push(RETURN);
    let delta = |frame: usize| vec![if frame == 0 { 3 } else { 2 }];
    one_method(Code {
        stack: 0,
        locals: 0,
        code,
        table: Vec::new(),
        frames: (0..count).map(delta).collect(),
    })
}

fn one_method(code: Code) -> Vec<u8> {
    let mut writer = Class::new();
    writer.method_of("run", &code);
    writer.finish(&class_name(0), "java/lang/Object")
}

/// Methods of 4,096 bytes of code, most of them under 32 table entries, with 32 locals and 256 full frames each.
pub fn covered(methods: usize) -> Vec<u8> {
    let mut writer = Class::new();
    let thrown = writer.class("java/lang/Throwable");
    let body = |thrown: u16| {
        let mut code = Vec::new();
        (0..32).for_each(|local| code.extend([ICONST_0, ISTORE, local]));
        let from = code.len() as u16;
        code.resize(4_093, NOP);
        code.extend([RETURN, POP, RETURN]);
        let frame = |delta: u16, stack: &[u8]| {
            let mut bytes = vec![255];
            bytes.extend(numbers(&[delta, 32]));
            bytes.extend([1; 32]);
            bytes.extend_from_slice(stack);
            bytes
        };
        let mut frames = vec![frame(from, &[0, 0])];
        (1..255).for_each(|_| frames.push(frame(14, &[0, 0])));
        let last = from + 254 * 15;
        let caught = [&[0, 1, 7][..], &thrown.to_be_bytes()].concat();
        frames.push(frame(4_094 - last - 1, &caught));
        Code {
            stack: 1,
            locals: 32,
            code,
            table: vec![[from, 4_093, 4_094, 0]; 32],
            frames,
        }
    };
    for method in 0..methods {
        writer.method_of(&format!("run{}", method), &body(thrown));
    }
    writer.finish(&class_name(0), "java/lang/Object")
}

fn class_name(class: usize) -> String {
    format!("job/Class{}", class)
}

/// The class before it, or Object.
fn chained(class: usize) -> String {
    match class {
        0 => "java/lang/Object".to_string(),
        _ => class_name(class - 1),
    }
}

/// Classes of about so many bytes each, all in the pool: names, classes, pairs, references, numbers.
pub fn pool_heavy(classes: usize, bytes: usize, methods: usize) -> Vec<u8> {
    let mut bundle = Vec::new();
    for class in 0..classes {
        let mut writer = Class::new();
        let descriptor = writer.text("(I)V");
        let mut group = 0;
        while writer.pool.len() + 100 < bytes {
            let name = writer.text(&format!("member{:04}x", group));
            let owner = writer.entry(7, &name.to_be_bytes());
            let pair = writer.pair(12, name, descriptor);
            writer.pair(10, owner, pair);
            writer.entry(3, &[0, 0, 1, 2]);
            if group < methods {
                writer.method(name, descriptor);
            }
            group += 1;
        }
        bundle.extend(writer.finish(&class_name(class), "java/lang/Object"));
    }
    bundle
}

/// How the methods of a worst bundle are named.
#[derive(Clone, Copy)]
pub enum Naming {
    /// Texts that differ in their last bytes only, no two alike in the bundle.
    Prefixed(usize),
    /// The same 64 names in every class.
    Repeated,
    /// One long name for all, and descriptors that differ.
    Overloaded,
    /// Names that differ, all of one print.
    Alike,
}

/// Classes of so many methods without attributes, each class below the one before it where `deep`.
pub fn methods(classes: usize, count: usize, naming: Naming, deep: bool) -> Vec<u8> {
    let mut bundle = Vec::new();
    for class in 0..classes {
        let mut writer = Class::new();
        let descriptor = writer.text("()V");
        let shared = writer.text(&"n".repeat(255));
        for method in 0..count {
            match naming {
                Naming::Prefixed(length) => {
                    let name = format!("{}{:02}{:02}", "p".repeat(length), class, method);
                    let name = writer.text(&name);
                    writer.method(name, descriptor);
                }
                Naming::Repeated => {
                    let name = writer.text(&format!("method{:02}", method));
                    writer.method(name, descriptor);
                }
                Naming::Overloaded => {
                    let own = writer.text(&format!("(Ljob/Class{};{})V", class, flags(method)));
                    writer.method(shared, own);
                }
                Naming::Alike => {
                    let name = writer.text(&alike(64 * class + method));
                    writer.method(name, descriptor);
                }
            }
        }
        let parent = match deep {
            true => chained(class),
            false => "java/lang/Object".to_string(),
        };
        bundle.extend(writer.finish(&class_name(class), &parent));
    }
    bundle
}

/// Six parameters that spell a number below 64.
fn flags(number: usize) -> String {
    let bit = |place: usize| match number >> place & 1 {
        0 => "I",
        _ => "[I",
    };
    (0..6).map(bit).collect()
}

/// A number below 1,024 spelt in two words that add the same to the reader's print, so that all such names have one.
fn alike(number: usize) -> String {
    let bit = |place: usize| match number >> place & 1 {
        0 => "lhbrtdic",
        _ => "stgpouwz",
    };
    (0..10).map(bit).collect()
}
