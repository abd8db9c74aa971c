// Appended by oracle/build: the fields are private, and a question may be any
// matrix, not only the product of a list.
/// The matrix of these parts, four coefficients for each entry.
pub(super) fn matrix_of(num_qubits: usize, exponent: u16, coefficients: &[i8]) -> UnitaryMatrix {
    let entry = |coefficients: &[i8]| Cyclotomic {
        coefficients: coefficients.try_into().expect("four coefficients"),
    };
    UnitaryMatrix {
        num_qubits,
        dim: 1 << num_qubits,
        denominator_exponent: exponent,
        data: coefficients.chunks_exact(4).map(entry).collect(),
    }
}
