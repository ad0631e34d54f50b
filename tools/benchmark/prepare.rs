// The driver's steps as prepared calls: operands are read, and labels made, before anything is timed.
include!("driver.rs");

type Step = Box<dyn Fn(&mut RiscV)>;

struct Steps {
    riscv: RiscV,
    steps: Vec<Step>,
    registers: [Reg; 32],
}

impl crate::Prepare for crate::Bench {
    fn prepare(&self, line: &str) -> Box<dyn crate::Deck> {
        let config = Config::new(crate::runnable::CompilerType::RiscV, 0).unwrap();
        let steps = line.split(';').map(|step| {
            let mut words = step.split_whitespace();
            let name = words.next().unwrap().to_string();
            prepared(&name, words.map(|w| w.parse().unwrap()).collect())
        });
        let registers = std::array::from_fn(|i| float(i as i64));
        Box::new(Steps { riscv: RiscV::new(config), steps: steps.collect(), registers })
    }
}

impl Steps {
    fn hand_out(&self, buf: Option<&mut [u8]>) -> usize {
        let code = &self.riscv.a.buf;
        if let Some(buf) = buf {
            buf.fill(0);
            buf[..code.len()].copy_from_slice(code);
        }
        code.len()
    }
}

impl crate::Deck for Steps {
    fn emit(&mut self, buf: Option<&mut [u8]>) -> usize {
        self.riscv.a = Assembler::new();
        for step in &self.steps {
            step(&mut self.riscv);
        }
        self.hand_out(buf)
    }

    fn read(&mut self, file: &[u8], buf: &mut [u8]) -> usize {
        self.riscv.a = Assembler::new();
        read_deck(&mut self.riscv, &self.registers, std::str::from_utf8(file).unwrap());
        self.hand_out(Some(buf))
    }
}

// A plain reader: lines, fields, a name matched and numbers parsed; nothing is judged.
fn read_deck(r: &mut RiscV, registers: &[Reg; 32], text: &str) {
    let mut lines = text.lines();
    let mut head = lines.next().unwrap().split(',');
    let fast = head.next().unwrap() == "fast";
    let mut count = || head.next().unwrap().parse::<usize>().unwrap();
    let (cap, states, obs, last, mask) = (count(), count(), count(), count(), count());
    let saved: Vec<Reg> = (0..32).filter(|i| mask >> i & 1 == 1).map(|i| registers[i]).collect();
    if fast {
        r.prologue_fast(cap, states, obs);
    } else {
        r.prologue_indirect(cap, states, obs, last);
    }
    r.save_used_registers(&saved);
    let mut values = Vec::new();
    for line in lines {
        read_line(r, registers, line, &mut values);
    }
    r.load_used_registers(&saved);
    if fast {
        r.epilogue_fast(cap, states, obs, last as i32);
    } else {
        r.epilogue_indirect(cap, states, obs, last);
    }
    if !values.is_empty() {
        to_eights(r);
    }
    r.add_consts(&values);
    r.apply_jumps();
}

fn read_line(r: &mut RiscV, registers: &[Reg; 32], line: &str, values: &mut Vec<f64>) {
    let mut fields = line.split(',');
    let name = fields.next().unwrap();
    macro_rules! n {
        () => {
            fields.next().unwrap().parse::<u32>().unwrap()
        };
    }
    macro_rules! f {
        () => {
            registers[n!() as usize]
        };
    }
    macro_rules! call {
        ($order:ident, $($operand:ident),*) => {
            r.$order($($operand),*)
        };
    }
    float_order!(name, f!(), call, match name {
        "ifelse" => {
            let (d, a, b) = (f!(), f!(), f!());
            r.ifelse(d, a, b, n!())
        }
        "load_const" => {
            let d = f!();
            r.load_const(d, n!())
        }
        "get" => {
            let d = f!();
            let place = fields.next().unwrap();
            match place {
                "mem" => r.load_mem(d, n!()),
                "stack" => r.load_stack(d, n!()),
                _ => r.load_param(d, n!()),
            }
        }
        "put" => {
            let d = f!();
            let place = fields.next().unwrap();
            match place {
                "mem" => r.save_mem(d, n!()),
                "stack" => r.save_stack(d, n!()),
                _ => r.save_d_to_loc(ϕ(d), Loc::Param(n!())),
            }
        }
        "branch" => {
            let c = f!();
            let target = label(n!() as i64);
            r.branch_if(c, &target, n!() != 0)
        }
        "label" => r.set_label(&label(n!() as i64)),
        "float" => values.push(fields.next().unwrap().parse::<i64>().unwrap() as f64),
        "bits" => values.push(f64::from_bits(u64::from_str_radix(fields.next().unwrap(), 16).unwrap())),
        _ => panic!("no such line"),
    })
}

fn prepared(name: &str, n: Vec<i64>) -> Step {
    let mut operands = n.iter().map(|&r| float(r));
    macro_rules! call {
        ($order:ident, $($operand:ident),*) => {
            Box::new(move |r: &mut RiscV| r.$order($($operand),*))
        };
    }
    float_order!(name, operands.next().unwrap(), call, prepared_other(name, n))
}

fn prepared_other(name: &str, n: Vec<i64>) -> Step {
    let f = |i: usize| n.get(i).and_then(|&r| if (0..32).contains(&r) { Some(float(r)) } else { None }).unwrap_or(Reg::Ret);
    let (d, a, b) = (f(0), f(1), f(2));
    let u = |i: usize| n.get(i).copied().unwrap_or(0) as u32;
    let (i, j) = (u(1), u(3));
    match name {
        "ifelse" => Box::new(move |r| r.ifelse(d, a, b, j)),
        "load_const" => Box::new(move |r| r.load_const(d, i)),
        "load_mem" => Box::new(move |r| r.load_mem(d, i)),
        "save_mem" => Box::new(move |r| r.save_mem(d, i)),
        "load_stack" => Box::new(move |r| r.load_stack(d, i)),
        "save_stack" => Box::new(move |r| r.save_stack(d, i)),
        "load_param" => Box::new(move |r| r.load_param(d, i)),
        "save_param" => Box::new(move |r| r.save_d_to_loc(ϕ(d), Loc::Param(i))),
        "branch_if" => {
            let (target, is_else) = (label(n[1]), n[2] != 0);
            Box::new(move |r| r.branch_if(d, &target, is_else))
        }
        "label" => {
            let target = label(n[0]);
            Box::new(move |r| r.set_label(&target))
        }
        _ => ends(name, n),
    }
}

// Frames, constants, finishing.
fn ends(name: &str, n: Vec<i64>) -> Step {
    let count = |i: usize| n.get(i).copied().unwrap_or(0) as usize;
    let (cap, states, obs, last) = (count(0), count(1), count(2), count(3));
    match name {
        "prologue_fast" => Box::new(move |r| r.prologue_fast(cap, states, obs)),
        "prologue_indirect" => Box::new(move |r| r.prologue_indirect(cap, states, obs, last)),
        "epilogue_fast" => Box::new(move |r| r.epilogue_fast(cap, states, obs, last as i32)),
        "epilogue_indirect" => Box::new(move |r| r.epilogue_indirect(cap, states, obs, last)),
        "save_used_registers" => {
            let mask = used(n[0]);
            Box::new(move |r| r.save_used_registers(&mask))
        }
        "load_used_registers" => {
            let mask = used(n[0]);
            Box::new(move |r| r.load_used_registers(&mask))
        }
        "to_eights" => Box::new(to_eights),
        "add_consts" => {
            let values: Vec<f64> = n.chunks(2).map(|h| double(h[0], h[1])).collect();
            Box::new(move |r| r.add_consts(&values))
        }
        "apply_jumps" => Box::new(|r| r.apply_jumps()),
        _ => panic!("no such step"),
    }
}
