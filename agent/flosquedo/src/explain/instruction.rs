//! Instructions in words.

use crate::outline::Pool;

/// By opcode.
const MNEMONICS: &str = "nop aconst_null iconst_m1 iconst_0 iconst_1 iconst_2 iconst_3 iconst_4 iconst_5 \
lconst_0 lconst_1 fconst_0 fconst_1 fconst_2 dconst_0 dconst_1 bipush sipush ldc ldc_w ldc2_w \
iload lload fload dload aload iload_0 iload_1 iload_2 iload_3 lload_0 lload_1 lload_2 lload_3 \
fload_0 fload_1 fload_2 fload_3 dload_0 dload_1 dload_2 dload_3 aload_0 aload_1 aload_2 aload_3 \
iaload laload faload daload aaload baload caload saload istore lstore fstore dstore astore \
istore_0 istore_1 istore_2 istore_3 lstore_0 lstore_1 lstore_2 lstore_3 fstore_0 fstore_1 fstore_2 fstore_3 \
dstore_0 dstore_1 dstore_2 dstore_3 astore_0 astore_1 astore_2 astore_3 \
iastore lastore fastore dastore aastore bastore castore sastore pop pop2 dup dup_x1 dup_x2 dup2 dup2_x1 dup2_x2 swap \
iadd ladd fadd dadd isub lsub fsub dsub imul lmul fmul dmul idiv ldiv fdiv ddiv irem lrem frem drem \
ineg lneg fneg dneg ishl lshl ishr lshr iushr lushr iand land ior lor ixor lxor iinc \
i2l i2f i2d l2i l2f l2d f2i f2l f2d d2i d2l d2f i2b i2c i2s lcmp fcmpl fcmpg dcmpl dcmpg \
ifeq ifne iflt ifge ifgt ifle if_icmpeq if_icmpne if_icmplt if_icmpge if_icmpgt if_icmple if_acmpeq if_acmpne \
goto jsr ret tableswitch lookupswitch ireturn lreturn freturn dreturn areturn return \
getstatic putstatic getfield putfield invokevirtual invokespecial invokestatic invokeinterface invokedynamic \
new newarray anewarray arraylength athrow checkcast instanceof monitorenter monitorexit wide multianewarray \
ifnull ifnonnull goto_w jsr_w";

pub fn mnemonic(opcode: u8) -> Option<&'static str> {
    MNEMONICS.split_ascii_whitespace().nth(usize::from(opcode))
}

/// Length of an instruction that jobs have, else None.
pub fn length(opcode: u8) -> Option<usize> {
    match opcode {
        0x10 | 0x12 | 0x15 | 0x19 | 0x36 | 0x3a | 0xbc => Some(2),
        0x11 | 0x84 | 0x99..=0xa7 | 0xb4..=0xb8 | 0xbb | 0xbd | 0xc0 | 0xc1 | 0xc6 | 0xc7 => {
            Some(3)
        }
        0x00..=0x08 | 0x1a..=0x1d | 0x2a..=0x2e | 0x32 | 0x3b..=0x3e | 0x4b..=0x4f | 0x53 => {
            Some(1)
        }
        0x57 | 0x59 | 0x5a | 0x5f | 0x60 | 0x64 | 0x68 | 0x6c | 0x70 | 0x74 | 0x78 => Some(1),
        0x7a | 0x7c | 0x7e | 0x80 | 0x82 | 0xac | 0xb0 | 0xb1 | 0xbe | 0xbf => Some(1),
        _ => None,
    }
}

/// Offsets where instructions begin, as far as the code can be followed.
pub fn starts(code: &[u8]) -> Vec<usize> {
    let mut found = Vec::new();
    let mut offset = 0;
    while let Some(&opcode) = code.get(offset) {
        found.push(offset);
        match length(opcode) {
            Some(length) => offset += length,
            None => break,
        }
    }
    found
}

pub fn byte(code: &[u8], offset: usize) -> Option<u8> {
    code.get(offset).copied()
}

pub fn pair(code: &[u8], offset: usize) -> Option<u16> {
    Some(u16::from_be_bytes([
        byte(code, offset)?,
        byte(code, offset + 1)?,
    ]))
}

/// The target of a branch at an offset, or None if there is no branch.
pub fn branch_target(code: &[u8], offset: usize) -> Option<i64> {
    match byte(code, offset)? {
        0x99..=0xa8 | 0xc6 | 0xc7 => {
            let delta = pair(code, offset + 1)? as i16;
            Some(offset as i64 + i64::from(delta))
        }
        _ => None,
    }
}

/// The pool index that an instruction holds.
pub fn pool_index(code: &[u8], offset: usize) -> Option<u32> {
    match byte(code, offset)? {
        0x12 => byte(code, offset + 1).map(u32::from),
        0x13 | 0x14 | 0xb2..=0xbb | 0xbd | 0xc0 | 0xc1 | 0xc5 => {
            pair(code, offset + 1).map(u32::from)
        }
        _ => None,
    }
}

/// The local that an instruction reads or writes.
pub fn local(code: &[u8], offset: usize) -> Option<u32> {
    let opcode = byte(code, offset)?;
    match opcode {
        0x15..=0x19 | 0x36..=0x3a | 0x84 => byte(code, offset + 1).map(u32::from),
        0x1a..=0x2d => Some(u32::from(opcode - 0x1a) % 4),
        0x3b..=0x4e => Some(u32::from(opcode - 0x3b) % 4),
        _ => None,
    }
}

/// Mnemonic and operands; None past the end of the code.
pub fn shown(code: &[u8], offset: usize, pool: &Pool<'_>) -> Option<String> {
    let opcode = byte(code, offset)?;
    let name = match mnemonic(opcode) {
        Some(name) => name,
        None => return Some(format!("the byte {:02x}, which is no instruction", opcode)),
    };
    let operands = operands(code, offset, opcode, pool).unwrap_or_default();
    Some(format!("{} {}", name, operands).trim_end().to_string())
}

fn operands(code: &[u8], offset: usize, opcode: u8, pool: &Pool<'_>) -> Option<String> {
    if let Some(index) = pool_index(code, offset) {
        return Some(format!("#{} ({})", index, pool.shown(index)));
    }
    if let Some(target) = branch_target(code, offset) {
        return Some(format!("to {}", target));
    }
    match opcode {
        0x10 => Some((byte(code, offset + 1)? as i8).to_string()),
        0x11 => Some((pair(code, offset + 1)? as i16).to_string()),
        0x15..=0x19 | 0x36..=0x3a => Some(byte(code, offset + 1)?.to_string()),
        0x84 => Some(format!(
            "{} by {}",
            byte(code, offset + 1)?,
            byte(code, offset + 2)? as i8
        )),
        0xbc => Some(format!("of {}", array_code(byte(code, offset + 1)?))),
        0xc4 => mnemonic(byte(code, offset + 1)?).map(str::to_string),
        _ => None,
    }
}

/// The element type that newarray's operand stands for.
pub fn array_code(code: u8) -> String {
    let names = [
        "boolean", "char", "float", "double", "byte", "short", "int", "long",
    ];
    let name = usize::from(code)
        .checked_sub(4)
        .and_then(|index| names.get(index));
    name.map_or(format!("code {}", code), |name| name.to_string())
}

#[cfg(test)]
mod tests {
    use super::*;

    #[test]
    fn mnemonics_stand_at_their_opcodes() {
        let expected = [
            (0x12, "ldc"),
            (0x60, "iadd"),
            (0x84, "iinc"),
            (0xa7, "goto"),
            (0xb1, "return"),
            (0xc7, "ifnonnull"),
            (0xc9, "jsr_w"),
        ];
        for (opcode, name) in expected {
            assert_eq!(mnemonic(opcode), Some(name));
        }
        assert_eq!(mnemonic(0xca), None);
    }

    #[test]
    fn operands_are_named_and_cut_ones_left_out() {
        let pool = Pool::default();
        assert_eq!(shown(&[0x10, 0xff], 0, &pool).as_deref(), Some("bipush -1"));
        assert_eq!(shown(&[0x10], 0, &pool).as_deref(), Some("bipush"));
        assert_eq!(
            shown(&[0xa7, 0xff, 0xff], 0, &pool).as_deref(),
            Some("goto to -1")
        );
        assert_eq!(
            shown(&[0xbc, 4], 0, &pool).as_deref(),
            Some("newarray of boolean")
        );
        assert_eq!(shown(&[], 0, &pool), None);
    }
}
