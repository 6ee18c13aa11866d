// Makes a sheet of one signal, works out a formula on it and checks a claim.
use rascrunel::{Checker, Fault, Sheet};

fn main() -> Result<(), Fault> {
    let sheet = Sheet::begin()?.append("a", &[0, 23, 36])?; // up from 5, down from 9
    let mut checker = Checker::new();
    println!("{:?}", checker.evaluate(&sheet, "TON(2,a)")?.words());
    println!("{}", checker.claim(&sheet, "a", "TON(2,a)")?);
    Ok(())
}
