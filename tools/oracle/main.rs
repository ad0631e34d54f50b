// Answers lines of standard input (driver.rs).
#![allow(warnings)]

include!("around.rs");

fn main() {
    std::panic::set_hook(Box::new(|_| {}));
    for line in std::io::stdin().lines() {
        let line = line.unwrap();
        match std::panic::catch_unwind(|| Oracle.ask(&line)) {
            Ok(answer) => println!("{answer}"),
            Err(_) => println!("panic"),
        }
    }
}
