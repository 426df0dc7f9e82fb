//! Sheets by hand on which units in step 3 fail the lower plan, one or more in a row: A.4 of paper 02,
//! "Falling further".

use crate::Cases;

/// Sheets as text, in major defects if nothing else is said: T+L is 2 at A, 6 at B and 10 at C, so that
/// a 4 fails A and grades B, an 8 fails B and grades C, and an 11 grades Substandard; two 9s begin step
/// 3 at C. A 3 stays at L of B and a 5 at L of C, and meet.
#[rustfmt::skip]
const SHEETS: &[(&str, &str)] = &[
    // "Two units in a row that fail the lower plan in step 3 now make the worse of their two defect
    // grades the new lower grade, each class at its S": from B to C and from C to no plan, in four
    // failures in a row. Without a plan no unit fails.
    ("falls from B to C to no plan", "
        designated    A
        plan major    0/1/1 1/3/3 2/5/5
        major         4   4   8   8   11  11  99  99
        cusum         1   1   3   3   5   5   0   0
        force         A   A   B   B   C   C   S   S
        standing      f   f   u   u   u   u   u   u
        grade         B   B   C   C   S   S   S   S
    "),
    // The worse of the two is that of the first failure, and unit 5 has no plan.
    ("a fall from B to no plan, the first failure graded lower", "
        designated    A
        plan major    0/1/1 1/3/3 2/5/5
        major         4   4   11  8   0
        cusum         1   1   3   3   0
        force         A   A   B   B   S
        standing      f   f   u   u   u
        grade         B   B   S   C   S
    "),
    // The worse of the two is that of the second failure. They are in different classes.
    ("a fall from B to no plan, the second failure graded lower", "
        designated    A
        plan severe   0/1/1 1/3/3 2/5/5
        plan major    0/1/1 1/3/3 2/5/5
        severe        0   0   8   0   0
        cusum         0   0   3   0   0
        major         4   4   0   11  0
        cusum         1   1   0   3   0
        force         A   A   B   B   S
        standing      f   f   u   u   u
        grade         B   B   C   S   S
    "),
    // "Both failures must come after the latest start of a lower plan": unit 2 began step 3 and does
    // not pair with unit 3.
    ("one failure behind the two that begin step 3", "
        designated    A
        plan major    0/1/1 1/3/3 2/5/5
        major         4   4   8   3
        cusum         1   1   3   3
        force         A   A   B   B
        standing      f   f   u   u
        grade         B   B   C   B
    "),
    // Unit 4 brought about the fall to C and does not pair with unit 5, which fails C: unit 6 goes on.
    ("three failures in a row in step 3", "
        designated    A
        plan major    0/1/1 1/3/3 2/5/5
        major         4   4   8   8   9   5
        cusum         1   1   3   3   5   5
        force         A   A   B   B   C   C
        standing      f   f   u   u   u   u
        grade         B   B   C   C   S   C
    "),
    // "A break or a redesignation forgets a failure just before, here too." Behind the break the CuSums
    // are at S of B, and units 4 and 5 pair as ever: unit 6 starts from the 2 of C.
    ("a break between two failures in step 3", "
        designated    A
        plan major    0/1/1 1/3/3 2/5/5
        before        .   .   .   |   .   .
        major         4   4   8   8   8   4
        cusum         1   1   3   3   3   1
        force         A   A   B   B   B   C
        standing      f   f   u   u   u   u
        grade         B   B   C   C   C   C
    "),
    // B is better than C and keeps step 3 and its CuSums, and forgets the failure all the same.
    ("a redesignation that keeps step 3 between two failures", "
        designated    A
        plan major    0/1/1 1/3/3 2/5/5
        before        .   .   .   B   .
        major         9   9   9   9   5
        cusum         1   1   5   5   5
        force         A   A   C   C   C
        standing      f   f   u   u   u
        grade         C   C   S   S   C
    "),
    // B is not better than B and ends step 3: unit 4 is a first failure of the designated plan.
    ("a redesignation that ends step 3 between two failures", "
        designated    A
        plan major    0/1/1 1/3/3 2/5/5
        before        .   .   .   B   .
        major         4   4   8   8   3
        cusum         1   1   3   3   3
        force         A   A   B   B   B
        standing      f   f   u   f   m
        grade         B   B   C   C   B
    "),
    // Units 3 and 5 are not in a row.
    ("a unit that meets between two failures in step 3", "
        designated    A
        plan major    0/1/1 1/3/3 2/5/5
        major         4   4   8   3   8   3
        cusum         1   1   3   3   3   3
        force         A   A   B   B   B   B
        standing      f   f   u   u   u   u
        grade         B   B   C   B   C   B
    "),
    // "and the qualifying run none": units 3 and 4 qualify, and so do 7 and 8, which do not end step 3.
    // Unit 9 takes the CuSum to zero, but is above the T of A.
    ("a fall behind a run of two", "
        designated    A
        plan major    0/1/1 1/3/3 2/5/5
        recoverable   1   1   1   1   1   1   1   1   1
        major         4   4   0   0   8   8   0   0   5
        cusum         1   1   0   0   3   3   0   0   0
        force         A   A   B   B   B   B   C   C   C
        standing      f   f   u   u   u   u   u   u   u
        grade         B   B   B   B   C   C   C   C   C
    "),
    // "The designated grade stays": units 6 to 8 are within the T of A, recover to A where they are in
    // reach, and unit 9 starts A at S. Code 4 has a unit of the fall and a recovered one.
    ("recovery after a fall behind a run of one", "
        designated    A
        plan major    0/1/1 1/3/3 2/5/5
        code          1   2   3   4   5   4   7   8   9
        recoverable   1   1   1   1   1   1   0   1   1
        major         4   4   0   8   8   1   1   1   2
        cusum         1   1   0   3   3   0   0   0   1
        force         A   A   B   B   B   C   C   C   A
        standing      f   f   u   u   u   r   u   r   m
        grade         B   B   B   C   C   A   C   A   A
        production    B   B   B   C   C   C   C   A   A
    "),
    // Step 3 is at C now: B is better and keeps it, though it is not better than the old lower grade.
    // Units 6 to 8 are within the T of B and recover to B.
    ("a redesignation after a fall that keeps step 3", "
        designated    A
        plan major    0/1/1 1/3/3 2/5/5
        before        .   .   .   .   B   .   .   .
        recoverable   1   1   1   1   1   1   1   1
        major         4   4   8   8   5   3   3   3
        cusum         1   1   3   3   2   0   0   0
        force         A   A   B   B   C   C   C   C
        standing      f   f   u   u   u   r   r   r
        grade         B   B   C   C   C   B   B   B
    "),
    // C is not better than C and ends it.
    ("a redesignation after a fall that ends step 3", "
        designated    A
        plan major    0/1/1 1/3/3 2/5/5
        before        .   .   .   .   C
        major         4   4   8   8   5
        cusum         1   1   3   3   2
        force         A   A   B   B   C
        standing      f   f   u   u   m
        grade         B   B   C   C   C
    "),
    // The CuSums are at S of C already: 2+4-5 = 1. Then two 11s fall to no plan. Units 3 and 4 fall to
    // the worse of their defect grades, C, and not of their portion grades.
    ("a break after a fall", "
        designated    A
        plan major    0/1/1 1/3/3 2/5/5
        before        .   .   .   .   |   .   .   .
        prerequisite  A   A   S   S   A   A   A   A
        major         4   4   8   8   4   11  11  0
        cusum         1   1   3   3   1   5   5   0
        force         A   A   B   B   C   C   C   S
        standing      f   f   u   u   u   u   u   u
        grade         B   B   S   S   C   S   S   S
    "),
];

pub fn add(cases: &mut Cases) {
    for (name, text) in SHEETS {
        cases.text(name, text);
    }
}
