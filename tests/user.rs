//! What a program that uses the crate says of a file: tests/packages builds it over the package of the crate.
fn main() {
    let path = std::env::args().nth(1).expect("a path");
    let bytes = std::fs::read(path).expect("its bytes");
    println!("{:?}", gazhdor::check(&bytes).map(|files| files.to_string()));
}
