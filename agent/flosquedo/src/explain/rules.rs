//! Each verdict's rule and usual cause.

pub struct Words {
    pub wrong: &'static str,
    pub rule: &'static str,
    pub cause: &'static str,
}

const fn entry(wrong: &'static str, rule: &'static str, cause: &'static str) -> Words {
    Words { wrong, rule, cause }
}

/// From number 1 on.
const WORDS: [Words; 18] = [
    entry(
        "the bundle has no bytes, or too many",
        "a bundle has 1 to 65,536 bytes",
        "the packaging step wrote nothing, or put other files in",
    ),
    entry(
        "the bytes end in the middle of something",
        "every item of a class file must be whole",
        "a download or copy that broke off",
    ),
    entry(
        "not a class file of a version that jobs may have",
        "each class file begins with CA FE BA BE and has version 51.0 or 52.0 (Java 7 or 8)",
        "the compiler was not told `--release 8`, or the file is no class file",
    ),
    entry(
        "a largest value is passed",
        "1,024 pool entries a class, 255 bytes a text, 32 fields, 64 methods, 16 parameters with the receiver, code of 1 to 4,096 bytes, 32 operands, 32 locals, 32 table entries, 16 classes",
        "generated code, or too many classes in one bundle",
    ),
    entry(
        "the constant pool holds something that jobs do not have, or an index names the wrong kind of entry",
        "pool entries are texts of ASCII, int numbers, classes, fields, methods and names with types",
        "a string, a lambda, an interface call, or a long, float or double number in the source",
    ),
    entry(
        "access flags that jobs do not have",
        "a class is public or plain, a field and a constructor public, a method public or public static; no interfaces, no other flags",
        "private, protected, final, abstract, or static fields; a class that is not public has a constructor that is not public either",
    ),
    entry(
        "a name or descriptor that is malformed or of a type that jobs do not have",
        "types are int, classes and arrays up to 7 deep, and void as a result; names are plain, and Code's parts fill its length",
        "boolean, byte, char, short, long, float or double in a field, parameter or result; a static initialiser",
    ),
    entry(
        "the same thing twice",
        "a class name, and a field or method with its descriptor, stands once; java/lang's built-in names are taken",
        "the same class was packaged twice",
    ),
    entry(
        "the classes do not fit together",
        "a super class and every class in a descriptor is in the bundle or built in; the supers lead to java/lang/Object; a method is static exactly if the one it hides is",
        "a class was left out of the bundle, or a library class is used",
    ),
    entry(
        "the method has no sound code",
        "a method has one Code with at most one StackMapTable, and at least as many locals as parameters",
        "an abstract or native method, or a tool that rewrote the method",
    ),
    entry(
        "an instruction that jobs do not have",
        "code uses only the listed instructions, whole, with locals below max_locals, and makes arrays of primitives only for int",
        "switch, long or double arithmetic, `a[i]++`, `x += 200`, `new int[3][4]`, static fields, strings",
    ),
    entry(
        "a branch or handler that does not lead to an instruction",
        "every target, and every start and handler of the exception table, is the first byte of an instruction; a range is not empty",
        "a tool that moved code and did not mend the offsets",
    ),
    entry(
        "the code names something that is not there",
        "what code names is in the bundle or built in, and of the kind that the instruction needs; a catch names a Throwable",
        "a library class or method, `super.m()`, or a class that was left out of the bundle",
    ),
    entry(
        "the frame table is malformed",
        "a StackMapTable has up to 256 frames in the forms of the JVM specification (4.7.4), each at an instruction, within max_stack and max_locals",
        "a tool that changed code and kept the old table",
    ),
    entry(
        "the wrong number of operands",
        "an instruction finds its operands on the stack, and the stack never holds more than max_stack",
        "hand-made or damaged code",
    ),
    entry(
        "an operand, a local or the state at a frame does not fit",
        "operands and locals have the types that the instruction, the call or the frame asks for",
        "a frame table that belongs to other code, or an object used before its constructor ran",
    ),
    entry(
        "a frame is missing, or control runs off the end",
        "where control meets or jumps to there is a frame in the StackMapTable, and code ends with a return, a throw or a jump",
        "the frame table was left out: compile for Java 7 or later",
    ),
    entry(
        "the constructor rule is broken",
        "each new object meets exactly one constructor call of its own class before it is used, and a constructor calls its own or its super class's first",
        "a tool that moved a constructor call",
    ),
];

const UNKNOWN: Words = entry(
    "an unknown verdict",
    "see the list of verdicts",
    "the program and its verifier are of different versions",
);

pub fn words(number: u32) -> &'static Words {
    let index = (number as usize).wrapping_sub(1);
    WORDS.get(index).unwrap_or(&UNKNOWN)
}
