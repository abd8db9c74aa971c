//! Every refusal of both functions, in the order of SPECIFICATION 9.2, with the lent memory
//! unchanged; and what is just inside each limit.

use murm::{
    coefficient_count, gates_of, library_circuit_matrix, matrix_of, synthesize, Arrays, Gate,
    Query, Record, Refusal, MARK, MAX_WIDTH,
};

/// What lent places hold before a call.
const NUMBER: i16 = 9393;
const WORD: u32 = 305419896;

mod lists {
    use super::*;

    /// The refusal of a list with a lent matrix of `len` places, which must stay as it was.
    #[track_caller]
    fn refused(width: u32, codes: &[u32], len: usize) -> Refusal {
        let mut out = vec![NUMBER; len];
        let refusal = library_circuit_matrix(width, codes, &mut out).unwrap_err();
        assert!(out.iter().all(|&place| place == NUMBER));
        refusal
    }

    /// H and T in turns: the gate at 116 does not fit.
    fn growing() -> Vec<u32> {
        [Gate::h(0).code(), Gate::t(0).code()].repeat(64)
    }

    #[test]
    fn width_too_large() {
        for width in [6, 7, 31, 32, 255, 256, u32::MAX] {
            for len in [0, 4, 16, 4096, 16384] {
                assert_eq!(refused(width, &[], len), Refusal::WidthTooLarge);
                assert_eq!(refused(width, &[MARK], len), Refusal::WidthTooLarge);
            }
        }
        assert_eq!(matrix_of(6, &[]), Err(Refusal::WidthTooLarge));
        assert_eq!(
            matrix_of(u32::MAX, &[Gate::h(0)]),
            Err(Refusal::WidthTooLarge)
        );
    }

    #[test]
    fn length_not_exact() {
        for width in 0..=MAX_WIDTH {
            let exact = coefficient_count(width).unwrap();
            for len in [0, exact - 1, exact + 1, 2 * exact, 4 * exact] {
                assert_eq!(refused(width, &[], len), Refusal::LengthNotExact);
                assert_eq!(refused(width, &[MARK], len), Refusal::LengthNotExact);
                assert_eq!(refused(width, &growing(), len), Refusal::LengthNotExact);
            }
        }
    }

    #[test]
    fn not_valid() {
        for position in [0, 1, 115, 116, 117, 127] {
            let mut codes = growing();
            codes[position] = Gate::h(1).code();
            // Each code is looked at before any gate is applied.
            assert_eq!(refused(1, &codes, 16), Refusal::NotValid(position));
            codes[127] = MARK;
            assert_eq!(refused(1, &codes, 16), Refusal::NotValid(position));
        }
        assert_eq!(refused(0, &[0], 4), Refusal::NotValid(0));
        assert_eq!(
            matrix_of(2, &[Gate::h(1), Gate::h(2)]),
            Err(Refusal::NotValid(1))
        );
    }

    #[test]
    fn does_not_fit() {
        let codes = growing();
        for width in 1..=MAX_WIDTH {
            let exact = coefficient_count(width).unwrap();
            assert_eq!(refused(width, &codes, exact), Refusal::DoesNotFit(116));
            assert_eq!(
                refused(width, &codes[..117], exact),
                Refusal::DoesNotFit(116)
            );
            let mut out = vec![NUMBER; exact];
            assert!(library_circuit_matrix(width, &codes[..116], &mut out).is_ok());
            assert!(out.iter().any(|&place| place != NUMBER));
        }
    }

    #[test]
    fn empty_list() {
        for width in 0..=MAX_WIDTH {
            let mut out = vec![NUMBER; coefficient_count(width).unwrap()];
            assert_eq!(library_circuit_matrix(width, &[], &mut out), Ok(0));
            let identity = matrix_of(width, &[]).unwrap();
            assert_eq!(identity.coefficients(), out);
            for row in 0..1 << width {
                for column in 0..1 << width {
                    let expected = [i16::from(row == column), 0, 0, 0];
                    assert_eq!(identity.entry(row, column), expected);
                }
            }
        }
    }
}

mod answers {
    use super::*;

    /// A call of `synthesize`, to be altered.
    #[derive(Clone)]
    struct Call {
        record: Record,
        fingerprints: Vec<u64>,
        parents: Vec<u32>,
        codes: Vec<u32>,
        width: u32,
        exponent: u16,
        coefficients: Vec<i16>,
        places: usize,
    }

    /// The table of SPECIFICATION 10.7, of S and Sdg, in arrays of exactly Q × E places, asked Z
    /// with a lent list of exactly G places.
    fn call() -> Call {
        let mut call = Call {
            record: Record {
                q: 1,
                g: 8,
                e: 10,
                b: 24,
                counts: [4, 0, 0, 0, 0],
            },
            fingerprints: vec![
                0x29cc3c6d2113fdc4,
                0x45bb475b3b2a7d1d,
                0x091e144b25807b85,
                0xbeb5662ea166a017,
            ],
            parents: vec![MARK, 0, 0, 1],
            codes: vec![MARK, 12288, 16384, 12288],
            width: 0,
            exponent: 0,
            coefficients: Vec::new(),
            places: 8,
        };
        call.fingerprints.resize(10, 0);
        call.parents.resize(10, WORD);
        call.codes.resize(10, WORD);
        call.ask(1, &[Gate::z(0)]);
        call
    }

    impl Call {
        /// Asks the matrix of a list.
        fn ask(&mut self, width: u32, gates: &[Gate]) {
            let matrix = matrix_of(width, gates).unwrap();
            self.width = width;
            self.exponent = matrix.exponent();
            self.coefficients = matrix.coefficients().to_vec();
        }

        fn arrays(&self) -> Arrays<'_> {
            Arrays {
                fingerprints: &self.fingerprints,
                parents: &self.parents,
                codes: &self.codes,
            }
        }

        /// The answer, as a list. All places of the lent list but its own must stay as they were.
        #[track_caller]
        fn answer(&self) -> Result<Option<Vec<u32>>, Refusal> {
            let query = Query {
                width: self.width,
                exponent: self.exponent,
                coefficients: &self.coefficients,
            };
            let mut out = vec![WORD; self.places];
            let answer = synthesize(&self.record, self.arrays(), query, &mut out);
            let count = answer.map_or(0, |count| count.unwrap_or(0));
            assert!(out[count..].iter().all(|&place| place == WORD));
            out.truncate(count);
            answer.map(|count| count.map(|_| out))
        }
    }

    type Change = fn(&mut Call);

    /// The answer to the call after a change of it.
    #[track_caller]
    fn after(change: impl FnOnce(&mut Call)) -> Result<Option<Vec<u32>>, Refusal> {
        let mut call = call();
        change(&mut call);
        call.answer()
    }

    /// What the table has for Z.
    fn found() -> Result<Option<Vec<u32>>, Refusal> {
        Ok(Some(vec![12288, 12288]))
    }

    #[test]
    fn answered() {
        assert_eq!(call().answer(), found());
        assert_eq!(after(|c| c.ask(1, &[Gate::t(0)])), Ok(None));
        assert_eq!(after(|c| c.ask(1, &[])), Ok(Some(vec![])));
        assert_eq!(after(|c| c.ask(1, &[Gate::sdg(0)])), Ok(Some(vec![16384])));
        // X Z X is -1 times Z.
        let turned = [Gate::x(0), Gate::z(0), Gate::x(0)];
        assert_eq!(after(|c| c.ask(1, &turned)), found());
        let turned = matrix_of(1, &turned).unwrap();
        let gates = gates_of(&call().record, call().arrays(), &turned);
        assert_eq!(gates, Ok(Some(vec![Gate::s(0), Gate::s(0)])));
    }

    /// No width's part: none, for every width that is not built.
    #[test]
    fn widths_without_a_part() {
        for width in [0, 2, 3, 4, 5] {
            assert_eq!(after(|c| c.ask(width, &[])), Ok(None));
        }
    }

    /// Two widths: node j of width 2 is at E + j.
    #[test]
    fn parts() {
        let mut call = call();
        call.record = Record {
            q: 2,
            g: 1,
            e: 2,
            b: 256,
            counts: [1, 2, 0, 0, 0],
        };
        // Width 1 has node 0 alone; node 1 of width 2 is Cx.
        call.ask(2, &[Gate::cx(0, 1)]);
        call.fingerprints = vec![0x29cc3c6d2113fdc4, 1, 2, 0xcdcd3a1f1392568d];
        call.parents = vec![MARK, WORD, MARK, 0];
        call.codes = vec![MARK, WORD, MARK, Gate::cx(0, 1).code()];
        assert_eq!(call.answer(), Ok(Some(vec![32784])));
        call.ask(2, &[Gate::cx(1, 0)]);
        assert_eq!(call.answer(), Ok(None));
    }

    #[test]
    fn lent_list() {
        for places in 0..8 {
            assert_eq!(after(|c| c.places = places), Err(Refusal::ListTooShort));
        }
        for places in [8, 9, 64, 1000] {
            assert_eq!(after(|c| c.places = places), found());
        }
        // G places are asked for, however short the list is, and also for none.
        let none = after(|c| {
            c.ask(1, &[Gate::t(0)]);
            c.places = 7;
        });
        assert_eq!(none, Err(Refusal::ListTooShort));
        let shortest = after(|c| {
            c.record.g = 2;
            c.places = 2;
        });
        assert_eq!(shortest, found());
        let empty = after(|c| {
            c.record.g = 0;
            c.places = 0;
            c.ask(1, &[]);
        });
        assert_eq!(empty, Ok(Some(vec![])));
    }

    #[test]
    fn bad_record() {
        let bad: &[fn(&mut Record)] = &[
            |r| r.q = 0,
            |r| r.q = 6,
            |r| r.q = u32::MAX,
            |r| r.e = 0,
            |r| r.e = 1_000_001,
            |r| r.e = u32::MAX,
            |r| r.b = 0,
            |r| r.b = 24 | 128,
            |r| r.b = 24 | 1 << 15,
            |r| r.b = u32::MAX,
            |r| r.g = 65,
            |r| r.g = u32::MAX,
            |r| r.counts[0] = 0,
            |r| r.counts[0] = 11,
            |r| r.counts[0] = usize::MAX,
        ];
        for change in bad {
            let answer = after(|c| {
                change(&mut c.record);
                c.places = 64;
            });
            assert_eq!(answer, Err(Refusal::BadTable));
            let mut record = call().record;
            change(&mut record);
            let matrix = matrix_of(1, &[]).unwrap();
            assert_eq!(
                gates_of(&record, call().arrays(), &matrix),
                Err(Refusal::BadTable)
            );
        }
        // Counts of widths above Q are not looked at.
        for count in [0, 11, usize::MAX] {
            assert_eq!(after(|c| c.record.counts[1..].fill(count)), found());
        }
        // The largest limits that are allowed.
        let largest = after(|c| {
            c.record.g = 64;
            c.record.b = 3967;
            c.places = 64;
        });
        assert_eq!(largest, found());
        // A second width has a count too.
        let second = after(|c| {
            c.record.q = 2;
            c.fingerprints.resize(20, 0);
            c.parents.resize(20, 0);
            c.codes.resize(20, 0);
        });
        assert_eq!(second, Err(Refusal::BadTable));
    }

    #[test]
    fn array_too_short() {
        for len in [0, 9] {
            assert_eq!(
                after(|c| c.fingerprints.truncate(len)),
                Err(Refusal::ArrayTooShort)
            );
            assert_eq!(
                after(|c| c.parents.truncate(len)),
                Err(Refusal::ArrayTooShort)
            );
            assert_eq!(
                after(|c| c.codes.truncate(len)),
                Err(Refusal::ArrayTooShort)
            );
        }
        assert_eq!(after(|c| c.record.e = 11), Err(Refusal::ArrayTooShort));
        assert_eq!(
            after(|c| c.record.e = 1_000_000),
            Err(Refusal::ArrayTooShort)
        );
        // Longer arrays are taken, each by itself.
        assert_eq!(after(|c| c.fingerprints.push(0)), found());
        assert_eq!(after(|c| c.parents.push(0)), found());
        assert_eq!(after(|c| c.codes.push(0)), found());
        assert_eq!(after(|c| c.record.e = 9), found());
    }

    #[test]
    fn query() {
        for width in [6, 32, u32::MAX] {
            assert_eq!(after(|c| c.width = width), Err(Refusal::WidthTooLarge));
        }
        for width in [0, 2, 3, 4, 5] {
            assert_eq!(after(|c| c.width = width), Err(Refusal::LengthNotExact));
        }
        for len in [0, 15, 17, 32, 64] {
            let answer = after(|c| c.coefficients.resize(len, 0));
            assert_eq!(answer, Err(Refusal::LengthNotExact));
        }
        for place in 0..16 {
            let answer = after(|c| c.coefficients[place] = -32768);
            assert_eq!(answer, Err(Refusal::OutOfRange));
            for allowed in [-32767, -128, 128, 32767] {
                assert_eq!(after(|c| c.coefficients[place] = allowed), Ok(None));
            }
        }
        for exponent in [1, 2, 65535] {
            let answer = after(|c| {
                c.exponent = exponent;
                c.coefficients.iter_mut().for_each(|place| *place *= 2);
            });
            assert_eq!(answer, Err(Refusal::NotLowest));
            // Z over sqrt(2)^k is in lowest denominator, and not unitary.
            assert_eq!(after(|c| c.exponent = exponent), Ok(None));
        }
        // With exponent 0 no entry is looked at.
        assert_eq!(after(|c| c.coefficients.fill(0)), Ok(None));
    }

    #[test]
    fn bad_chain() {
        let bad: &[Change] = &[
            // A parent that is not below its node, at the node found or on its way.
            |c| c.parents[3] = 3,
            |c| c.parents[3] = 4,
            |c| c.parents[3] = MARK,
            |c| c.parents[1] = 1,
            |c| c.parents[1] = 3,
            // A code that is not valid for B at the width.
            |c| c.codes[3] = MARK,
            |c| c.codes[3] = Gate::t(0).code(),
            |c| c.codes[3] = Gate::y(0).code(),
            |c| c.codes[3] = Gate::s(1).code(),
            |c| c.codes[1] = 7 * 4096,
            // More than G gates.
            |c| c.record.g = 1,
            |c| c.record.g = 0,
            // Node 0 without its marks.
            |c| c.parents[0] = 0,
            |c| c.codes[0] = 0,
        ];
        for change in bad {
            assert_eq!(after(change), Err(Refusal::BadTable));
            // Where another chain is walked, or none, nothing is refused.
            let other = after(|c| {
                change(c);
                c.ask(1, &[Gate::t(0)]);
            });
            assert_eq!(other, Ok(None));
        }
    }

    /// A wrong table never gives a wrong list: each is multiplied out and compared.
    #[test]
    fn altered_table() {
        // Z's fingerprint at the nodes of S and Sdg, which are looked at first and passed.
        let clashes = after(|c| {
            c.fingerprints[1] = c.fingerprints[3];
            c.fingerprints[2] = c.fingerprints[3];
        });
        assert_eq!(clashes, found());
        // A bad chain before the match is met.
        let before = after(|c| {
            c.fingerprints[2] = c.fingerprints[3];
            c.codes[2] = Gate::x(0).code();
        });
        assert_eq!(before, Err(Refusal::BadTable));
        // A chain that is good, of another list.
        assert_eq!(after(|c| c.parents[3] = 2), Ok(None));
        assert_eq!(after(|c| c.codes[1] = Gate::sdg(0).code()), Ok(None));
        // Z is not among the nodes, or no longer.
        assert_eq!(after(|c| c.fingerprints[3] ^= 1), Ok(None));
        assert_eq!(after(|c| c.record.counts[0] = 3), Ok(None));
        // A later node of the same fingerprint is not looked at, and so can be bad.
        let later = after(|c| {
            c.fingerprints[4] = c.fingerprints[3];
            c.record.counts[0] = 5;
        });
        assert_eq!(later, found());
        // A list of a basis is answered, even if no build would have it there.
        let longer = after(|c| {
            c.parents[3] = 2;
            c.codes[3] = Gate::sdg(0).code();
        });
        assert_eq!(longer, Ok(Some(vec![16384, 16384])));
    }

    /// All causes together in every choice: the first of them is told.
    #[test]
    fn order_of_the_checks() {
        let causes: [(Refusal, Change); 8] = [
            (Refusal::BadTable, |c| c.record.counts[0] = 0),
            (Refusal::ArrayTooShort, |c| c.parents.truncate(9)),
            (Refusal::WidthTooLarge, |c| c.width = 6),
            (Refusal::LengthNotExact, |c| c.coefficients.push(2)),
            (Refusal::OutOfRange, |c| c.coefficients[1] = -32768),
            (Refusal::NotLowest, |c| {
                c.exponent = 1;
                c.coefficients.iter_mut().for_each(|place| *place &= -2);
            }),
            (Refusal::ListTooShort, |c| c.places = 7),
            (Refusal::BadTable, |c| c.codes[3] = MARK),
        ];
        for choice in 0..1u32 << causes.len() {
            let mut call = call();
            for (i, (_, change)) in causes.iter().enumerate() {
                if choice >> i & 1 == 1 {
                    change(&mut call);
                }
            }
            let expected = match causes.get(choice.trailing_zeros() as usize) {
                Some((first, _)) => Err(*first),
                None => found(),
            };
            assert_eq!(call.answer(), expected, "choice {choice:#b}");
        }
    }

    /// A chain of all allowed nodes is followed for at most G gates, with the stack of a thread.
    #[test]
    fn longest_chain() {
        let answer = after(|c| {
            c.record = Record {
                q: 1,
                g: 64,
                e: 1_000_000,
                b: 24,
                counts: [1_000_000, 0, 0, 0, 0],
            };
            c.places = 64;
            c.parents = (0..1_000_000)
                .map(|node: u32| node.wrapping_sub(1))
                .collect();
            c.codes = vec![12288; 1_000_000];
            c.codes[0] = MARK;
            let z = c.fingerprints[3];
            c.fingerprints = vec![0; 1_000_000];
            c.fingerprints[999_999] = z;
        });
        assert_eq!(answer, Err(Refusal::BadTable));
    }
}
