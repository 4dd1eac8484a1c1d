use std::io::Read;
use storklocker::List;

fn main() {
    let list = List::of(&[("collections", "OrderedDict"), ("datetime", "datetime")]);
    let mut pickle = Vec::new();
    std::io::stdin().read_to_end(&mut pickle).expect("standard input can be read");
    match list.check(&pickle) {
        Ok(it) => println!("yes: {} bytes, {} imports", it.taken, it.imports),
        Err(refusal) => {
            println!("{}", refusal);
            std::process::exit(1);
        }
    }
}
