//! The opcode table.

/// Calls count their receiver here; arguments and result are the descriptor's.
#[derive(Clone, Copy, Debug, PartialEq, Eq)]
pub(crate) struct Row {
    /// 0 for an opcode that is not listed.
    pub length: u8,
    pub taken: u8,
    pub left: u8,
}

/// A row for each opcode byte.
pub(crate) static ROWS: [Row; 256] = build_rows();

/// First and last opcode of each run of equal rows.
const RUNS: &[(u8, u8, Row)] = &[
    (0x00, 0x00, row(1, 0, 0)), // nop
    (0x01, 0x08, row(1, 0, 1)), // aconst_null, iconst_m1 to iconst_5
    (0x10, 0x10, row(2, 0, 1)), // bipush
    (0x11, 0x11, row(3, 0, 1)), // sipush
    (0x12, 0x12, row(2, 0, 1)), // ldc
    (0x15, 0x15, row(2, 0, 1)), // iload
    (0x19, 0x19, row(2, 0, 1)), // aload
    (0x1a, 0x1d, row(1, 0, 1)), // iload_0 to iload_3
    (0x2a, 0x2d, row(1, 0, 1)), // aload_0 to aload_3
    (0x2e, 0x2e, row(1, 2, 1)), // iaload
    (0x32, 0x32, row(1, 2, 1)), // aaload
    (0x36, 0x36, row(2, 1, 0)), // istore
    (0x3a, 0x3a, row(2, 1, 0)), // astore
    (0x3b, 0x3e, row(1, 1, 0)), // istore_0 to istore_3
    (0x4b, 0x4e, row(1, 1, 0)), // astore_0 to astore_3
    (0x4f, 0x4f, row(1, 3, 0)), // iastore
    (0x53, 0x53, row(1, 3, 0)), // aastore
    (0x57, 0x57, row(1, 1, 0)), // pop
    (0x59, 0x59, row(1, 1, 2)), // dup
    (0x5a, 0x5a, row(1, 2, 3)), // dup_x1
    (0x5f, 0x5f, row(1, 2, 2)), // swap
    (0x60, 0x60, row(1, 2, 1)), // iadd
    (0x64, 0x64, row(1, 2, 1)), // isub
    (0x68, 0x68, row(1, 2, 1)), // imul
    (0x6c, 0x6c, row(1, 2, 1)), // idiv
    (0x70, 0x70, row(1, 2, 1)), // irem
    (0x74, 0x74, row(1, 1, 1)), // ineg
    (0x78, 0x78, row(1, 2, 1)), // ishl
    (0x7a, 0x7a, row(1, 2, 1)), // ishr
    (0x7c, 0x7c, row(1, 2, 1)), // iushr
    (0x7e, 0x7e, row(1, 2, 1)), // iand
    (0x80, 0x80, row(1, 2, 1)), // ior
    (0x82, 0x82, row(1, 2, 1)), // ixor
    (0x84, 0x84, row(3, 0, 0)), // iinc
    (0x99, 0x9e, row(3, 1, 0)), // ifeq to ifle
    (0x9f, 0xa6, row(3, 2, 0)), // if_icmpeq to if_acmpne
    (0xa7, 0xa7, row(3, 0, 0)), // goto
    (0xac, 0xac, row(1, 1, 0)), // ireturn
    (0xb0, 0xb0, row(1, 1, 0)), // areturn
    (0xb1, 0xb1, row(1, 0, 0)), // return
    (0xb4, 0xb4, row(3, 1, 1)), // getfield
    (0xb5, 0xb5, row(3, 2, 0)), // putfield
    (0xb6, 0xb7, row(3, 1, 0)), // invokevirtual, invokespecial
    (0xb8, 0xb8, row(3, 0, 0)), // invokestatic
    (0xbb, 0xbb, row(3, 0, 1)), // new
    (0xbc, 0xbc, row(2, 1, 1)), // newarray
    (0xbd, 0xbd, row(3, 1, 1)), // anewarray
    (0xbe, 0xbe, row(1, 1, 1)), // arraylength
    (0xbf, 0xbf, row(1, 1, 0)), // athrow
    (0xc0, 0xc1, row(3, 1, 1)), // checkcast, instanceof
    (0xc6, 0xc7, row(3, 1, 0)), // ifnull, ifnonnull
];

const fn row(length: u8, taken: u8, left: u8) -> Row {
    Row {
        length,
        taken,
        left,
    }
}

const fn build_rows() -> [Row; 256] {
    let mut rows = [row(0, 0, 0); 256];
    let mut run = 0;
    while run < RUNS.len() {
        let (first, last, row) = RUNS[run];
        let mut opcode = first as usize;
        while opcode <= last as usize {
            rows[opcode] = row;
            opcode += 1;
        }
        run += 1;
    }
    rows
}

#[cfg(test)]
mod tests {
    use super::*;

    fn opcodes_of_length(length: u8) -> Vec<usize> {
        (0..256)
            .filter(|&opcode| ROWS[opcode].length == length)
            .collect()
    }

    fn listed(text: &str) -> Vec<usize> {
        let parse = |text| usize::from_str_radix(text, 16).unwrap();
        let runs = text.split(' ').flat_map(|run| match run.split_once('-') {
            Some((first, last)) => parse(first)..=parse(last),
            None => parse(run)..=parse(run),
        });
        runs.collect()
    }

    #[test]
    fn lengths_are_the_papers() {
        let one = "00-08 1a-1d 2a-2e 32 3b-3e 4b-4f 53 57 59 5a 5f 60 64 68 6c 70 74 78 7a 7c \
                   7e 80 82 ac b0 b1 be bf";
        assert_eq!(opcodes_of_length(1), listed(one));
        assert_eq!(opcodes_of_length(2), listed("10 12 15 19 36 3a bc"));
        let three = "11 84 99-a7 b4-b8 bb bd c0 c1 c6 c7";
        assert_eq!(opcodes_of_length(3), listed(three));
    }
}
