// The crate around the Rust's files. build.py links those beside this file, and makes generator.rs, the trait that riscv64 implements,
// from riscv64's own signatures. What else the files name stands here, as small as it compiles.

mod assembler;
mod code;
mod config;
mod generator;
mod riscv64;
mod symbol;
mod utils;

mod runnable {
    #[derive(Clone)]
    pub enum CompilerType {
        ByteCode,
        Arm,
        RiscV,
        Amd,
        AmdAVX,
        AmdSSE,
        Native,
        Debug,
    }
}

mod defuns {
    pub struct Defuns {
        pub funcs: std::collections::HashMap<String, crate::code::Func>,
    }
}

mod operation {
    pub enum Operation {
        Plus,
        Minus,
        Times,
        Divide,
        Op(String),
    }

    impl Operation {
        pub fn new(name: &str) -> Operation {
            Operation::Op(name.into())
        }
    }
}

mod applet {
    #[derive(Clone)]
    pub struct Applet {
        pub config: crate::config::Config,
        pub count_obs: usize,
    }

    impl Applet {
        pub fn scalar_ptr(&self) -> Option<fn()> {
            None
        }

        pub fn scalar_kernel(&self) -> Option<fn()> {
            None
        }
    }
}

mod machine {
    pub struct MachineCode<T>(T);
}

// What the driver answers to one line. (The driver stands inside riscv64, where private functions are open to it; this trait is the way in.)
pub struct Oracle;

pub trait Ask {
    fn ask(&self, line: &str) -> String;
}
