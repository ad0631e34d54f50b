// The driver: build.py puts this file in the place of riscv64's own tests, so that it sees the private functions.
// A line is a list of steps parted by `;`, each a function's name and its operands; a fresh assembler does them in turn.
// The answer is the code's bytes in hexadecimal digits, or the value of the last step where that step has one (`=` and the number).
use super::*;

// A float register by its number, through the Rust's own tables.
fn float(n: i64) -> Reg {
    match n {
        10 => Reg::Ret,
        11 => Reg::Temp,
        n => Reg::Gen(FMAP.iter().position(|&f| f as i64 == n).unwrap() as u8),
    }
}

// Labels by document 01's numbers.
fn label(n: i64) -> String {
    const OWN: [&str; 7] = ["@self", "@main", "@pro", "@epi", "@done", "@success", "@epilogue"];
    match n {
        2032..=2038 => OWN[n as usize - 2032].into(),
        1024..=2031 => format!("_const_{}_", n - 1024),
        n => format!("user{n}"),
    }
}

fn used(mask: i64) -> Vec<Reg> {
    (0..32).filter(|r| mask >> r & 1 == 1).map(float).collect()
}

// A float by the two halves of its bits.
fn double(low: i64, high: i64) -> f64 {
    f64::from_bits(low as u64 | (high as u64) << 32)
}

fn location(place: i64, idx: u32) -> Loc {
    match place {
        0 => Loc::Mem(idx),
        1 => Loc::Stack(idx),
        2 => Loc::Param(idx),
        _ => panic!("no such place"),
    }
}

// Document 02, point 7: one `nop` where the length so far is no multiple of 8. Constants follow.
fn to_eights(a: &mut RiscV) {
    if a.a.ip() % 8 != 0 {
        a.a.append_word(0x00000013);
    }
}

impl crate::Ask for crate::Oracle {
    fn ask(&self, line: &str) -> String {
        let config = Config::new(crate::runnable::CompilerType::RiscV, 0).unwrap();
        let mut a = RiscV::new(config);
        let mut value = None;
        for step in line.split(';') {
            let mut words = step.split_whitespace();
            let name = words.next().unwrap();
            let n: Vec<i64> = words.map(|w| w.parse().unwrap()).collect();
            value = do_step(&mut a, name, &n);
        }
        match value {
            Some(v) => format!("={v}"),
            None => a.bytes().iter().map(|b| format!("{b:02x}")).collect(),
        }
    }
}

fn do_step(a: &mut RiscV, name: &str, n: &[i64]) -> Option<u64> {
    let u = |i: usize| u32::try_from(n[i]).unwrap();
    let x = |i: usize| u8::try_from(n[i]).unwrap();
    let count = |i: usize| n[i] as usize;
    match name {
        "align_stack" => return Some(align_stack(u(0)) as u64),
        "hi" => return Some(hi(n[0] as u32) as u64),
        "lo" => return Some(lo(n[0] as u32) as u64),
        "pad" => (0..n[0]).for_each(|_| a.a.append_word(0)),
        "append_word" => a.a.append_word(u(0)),
        "to_eights" => to_eights(a),
        "append_quad" => a.append_quad(n[0] as u64 | (n[1] as u64) << 32),
        "set_label" | "label" => a.set_label(&label(n[0])),
        "apply_jumps" => a.apply_jumps(),
        "beq" => a.jump(&label(n[0]), 0, |offset, _| rvv! {beq x(STATES), x(RiscV::zero), offset}),
        "bne" => a.jump(&label(n[0]), 0, |offset, _| rvv! {bne x(RiscV::t2), x(RiscV::zero), offset}),
        "load_x_from_label" => a.load_x_from_label(x(0), &label(n[1])),
        "j" => a.j(&label(n[0]), x(1)),
        "add_consts" => a.add_consts(&n.chunks(2).map(|h| double(h[0], h[1])).collect::<Vec<f64>>()),
        "add_const" => {
            a.set_label(&label(1024 + n[0]));
            a.append_quad(double(n[1], n[2]).to_bits());
        }
        "jumps" => (0..n[0]).for_each(|_| a.jump(&label(0), 0, |_, _| 0)),
        "li" => a.li(x(0), i32::try_from(n[1]).unwrap()),
        "load_float" => a.load_float(x(0), x(1), u(2)),
        "save_float" => a.save_float(x(0), x(1), u(2)),
        "load_int" => a.load_int(x(0), x(1), u(2)),
        "load_complex" => a.load_complex(float(n[0]), float(n[0] + 1), x(1), u(2)),
        "save_complex" => a.save_complex(float(n[0]), float(n[0] + 1), x(1), u(2)),
        "load_c_from_loc" => a.load_c_from_loc(x(0), location(n[1], u(2))),
        "save_c_to_loc" => a.save_c_to_loc(x(0), location(n[1], u(2))),
        "sub_stack" => a.sub_stack(u(0)),
        "add_stack" => a.add_stack(u(0)),
        "allocate_stack" => allocate_stack(&mut a.a, u(0), false),
        "prologue_fast" => a.prologue_fast(count(0), count(1), count(2)),
        "epilogue_fast" => a.epilogue_fast(count(0), count(1), count(2), n[3] as i32),
        "prologue_indirect" => a.prologue_indirect(count(0), count(1), count(2), count(3)),
        "epilogue_indirect" => a.epilogue_indirect(count(0), count(1), count(2), count(3)),
        "save_used_registers" => a.save_used_registers(&used(n[0])),
        "load_used_registers" => a.load_used_registers(&used(n[0])),
        _ => order(a, name, n),
    }
    None
}

// The orders of float registers alone, with their operands (the Rust's `frac` has a scratch register of its own; `sign` is below).
// Where `name` is one of them, its operands are `next`, each in its turn, and the macro `call` gets the order and these; else it's `other`.
// tools/benchmark shares the list: a new order is one entry.
macro_rules! float_order {
    ($name:expr, $next:expr, $call:ident, $other:expr) => {
        float_order! { [$name, $next, $call, $other]
            fmov(d, a) recip(d, a) round(d, a) floor(d, a) not(d, a)
            frac(d, a)
            minus(d, a, b) times(d, a, b) divide(d, a, b) gt(d, a, b) neq(d, a, b)
            and(d, a, b) andnot(d, a, b) or(d, a, b) xor(d, a, b)
            fused_mul_add(d, a, b, c) fused_mul_sub(d, a, b, c) fused_neg_mul_add(d, a, b, c) fused_neg_mul_sub(d, a, b, c)
        }
    };
    ([$name:expr, $next:expr, $call:ident, $other:expr] $($order:ident($($operand:ident),*))*) => {
        match $name {
            $(stringify!($order) => {
                $(let $operand = $next;)*
                $call!($order, $($operand),*)
            })*
            _ => $other,
        }
    };
}

fn order(a: &mut RiscV, name: &str, n: &[i64]) {
    let mut operands = n.iter().map(|&r| float(r));
    macro_rules! call {
        ($order:ident, $($operand:ident),*) => {
            a.$order($($operand),*)
        };
    }
    float_order!(name, operands.next().unwrap(), call, other_order(a, name, n))
}

fn other_order(a: &mut RiscV, name: &str, n: &[i64]) {
    let f = |i: usize| float(n[i]);
    let u = |i: usize| u32::try_from(n[i]).unwrap();
    match name {
        "sign" => sign(a, n),
        "rust_sign" => a.sign(f(0), f(1)),
        "xor_two_names" => a.xor(float(12), Reg::Ret, Reg::Gen(30)),
        "fmov_two_names" => a.fmov(Reg::Ret, Reg::Left),
        "ifelse" => a.ifelse(f(0), f(1), f(2), u(3)),
        "load_const" => a.load_const(f(0), u(1)),
        "branch_if" => a.branch_if(f(0), &label(n[1]), n[2] != 0),
        "load_mem" => a.load_mem(f(0), u(1)),
        "save_mem" => a.save_mem(f(0), u(1)),
        "load_stack" => a.load_stack(f(0), u(1)),
        "save_stack" => a.save_stack(f(0), u(1)),
        "load_param" => a.load_param(f(0), u(1)),
        "save_param" => a.save_d_to_loc(ϕ(f(0)), Loc::Param(u(1))),
        _ => instruction(a, name, n),
    }
}

// Document 01's `sign`: the Rust's own order has other words.
fn sign(a: &mut RiscV, n: &[i64]) {
    a.emit(rvv! {fmv.d.x f(n[2]), x(RiscV::zero)});
    a.emit(rvv! {flt.d x(RiscV::t0), f(n[2]), f(n[1])});
    a.emit(rvv! {flt.d x(RiscV::t1), f(n[1]), f(n[2])});
    a.emit(rvv! {sub x(RiscV::t0), x(RiscV::t0), x(RiscV::t1)});
    a.emit(rvv! {fcvt.d.w f(n[0]), x(RiscV::t0)});
}

// Forms of `rvv!` beyond their fields, for the list of differences.
fn instruction(a: &mut RiscV, name: &str, n: &[i64]) {
    let imm = |i: usize| n[i] as i32;
    let word = match name {
        "rvv_add" => rvv! {add x(n[0]), x(n[1]), x(n[2])},
        "rvv_addi" => rvv! {addi x(n[0]), x(n[1]), imm(2)},
        "rvv_slli" => rvv! {slli x(n[0]), x(n[1]), imm(2)},
        "rvv_sd" => rvv! {sd x(n[0]), x(n[1]), imm(2)},
        "rvv_beq" => rvv! {beq x(n[0]), x(n[1]), imm(2)},
        "rvv_jal" => rvv! {jal x(n[0]), imm(1)},
        "rvv_lui" => rvv! {lui x(n[0]), imm(1)},
        "rvv_fcvt_l_d" => rvv! {fcvt.l.d x(n[0]), f(n[1]), n[2] as u32},
        _ => panic!("no such step"),
    };
    a.emit(word);
}
