// Stub, appended by oracle/build: the file above calls it and no supplied file
// defines it. Only the constructors of `Circuit` come here; the oracle makes
// no `Circuit`.
fn qubit_operands(_: &Gate) -> (usize, [Qubit; 3]) {
    panic!("stub of the oracle: qubit_operands")
}
